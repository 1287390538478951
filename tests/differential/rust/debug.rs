// Stand-in. Nothing that is compared reaches it.
#[derive(Debug, Clone)]
pub struct DebugInfo;
