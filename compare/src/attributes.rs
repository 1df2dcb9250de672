//! Stand-ins for what the module imports and does not define. They only carry data: which attribute and which part an error is about.

use std::str::FromStr;

#[derive(Debug, Clone, PartialEq, Eq)]
pub enum AttributeError {
    ParamNotFound { param: String, attr: String },
    InvalidParamValue { param: String, val: String, attr: String },
}

impl AttributeError {
    fn param(&mut self) -> &mut String {
        match self {
            Self::ParamNotFound { param, .. } | Self::InvalidParamValue { param, .. } => param,
        }
    }

    fn attr(&mut self) -> &mut String {
        match self {
            Self::ParamNotFound { attr, .. } | Self::InvalidParamValue { attr, .. } => attr,
        }
    }
}

pub trait ErrorContext: Sized {
    /// Sets the attribute that the error is about.
    fn with_attr(self, name: &str) -> Self;
    /// Puts the part that was being read in front of the name of what is wrong in it.
    fn with_param_context(self, context: &str) -> Self;
}

impl<T> ErrorContext for Result<T, AttributeError> {
    fn with_attr(self, name: &str) -> Self {
        self.map_err(|mut error| {
            *error.attr() = name.to_string();
            error
        })
    }

    fn with_param_context(self, context: &str) -> Self {
        self.map_err(|mut error| {
            error.param().insert_str(0, &format!("{context}: "));
            error
        })
    }
}

pub trait TypedAttribute: FromStr<Err = AttributeError> {
    const NAME: &'static str;
}
