use crate::user::prelude::*;
pub enum Note {}
