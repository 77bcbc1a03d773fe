//! Both forms of memory, as traffic lends them: form B with the octet of a profile ahead, the old form
//! without.

use port::{behind_first, value_in, Profile, RELEASE_16, RELEASE_18};

/// Memory of profile 02 in form B, whatever its octets and their number.
pub fn form_b(memory: &[u8]) -> Vec<u8> {
    form_b_of(&RELEASE_18, memory)
}

/// Memory in form B with the octet of a profile ahead, be it sound there or not.
pub fn form_b_of(profile: &Profile, memory: &[u8]) -> Vec<u8> {
    [&[profile.octet], memory].concat()
}

/// The profile of what is lent: 02 where it has none.
pub fn profile(lent: &[u8]) -> &'static Profile {
    let first = lent.first().copied();
    first.and_then(Profile::of).unwrap_or(&RELEASE_18)
}

/// The other profile.
pub fn other(profile: &Profile) -> &'static Profile {
    if profile.octet == RELEASE_18.octet {
        &RELEASE_16
    } else {
        &RELEASE_18
    }
}

/// What is lent without its first octet: in form B, the memory.
pub fn behind(lent: &[u8]) -> &[u8] {
    lent.get(1..).unwrap_or_default()
}

/// The value at a place of what is lent in form B; none where that is another form.
pub fn held(lent: &[u8], place: usize) -> Option<&[u8]> {
    behind_first(lent).and_then(|(_, memory)| value_in(memory, place))
}
