//! Stand-in: what variables.rs keeps of a variable.
#[derive(Copy, Clone, Eq, PartialEq, Debug)]
pub enum SamplingMode {
    Sample,
    Witness,
    Hide,
}

#[derive(Clone, Debug)]
pub struct VarData {
    pub sampling_mode: SamplingMode,
    pub unit: Option<bool>,
    pub isolated: bool,
    pub assumed: bool,
    pub deleted: bool,
}

impl Default for VarData {
    fn default() -> VarData {
        VarData {
            sampling_mode: SamplingMode::Hide,
            unit: None,
            isolated: true,
            assumed: false,
            deleted: true,
        }
    }
}

impl VarData {
    pub fn user_default() -> VarData {
        VarData {
            sampling_mode: SamplingMode::Sample,
            unit: None,
            isolated: false,
            assumed: false,
            deleted: false,
        }
    }
}
