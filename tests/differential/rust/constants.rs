// Stand-in. Nothing that is compared reaches it.
pub fn is_reserved_word(_name: &str) -> bool {
    false
}
