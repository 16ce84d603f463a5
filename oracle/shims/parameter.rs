//! Stands for `op/parameter.rs`: the kinds of parameters that the five operators name in their gamuts.

#[derive(Debug)]
pub enum OpParameter {
    Flag {
        key: &'static str,
    },
    Series {
        key: &'static str,
        default: Option<&'static str>,
    },
    Text {
        key: &'static str,
        default: Option<&'static str>,
    },
}

impl OpParameter {
    pub fn key(&self) -> &'static str {
        match self {
            OpParameter::Flag { key } => key,
            OpParameter::Series { key, .. } => key,
            OpParameter::Text { key, .. } => key,
        }
    }
}
