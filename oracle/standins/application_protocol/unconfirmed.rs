// Stand-in for application_protocol/unconfirmed.rs, which is not there: one case, never made.
#[derive(Debug, Clone)]
pub enum UnconfirmedServiceChoice {
    Only = 0,
}
