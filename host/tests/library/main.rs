//! The reference against the verified library, byte for byte. Compiled only with
//! HEALDRIP_LIB_DIR set (see src/library.rs). HEALDRIP_MAPS is the number of maps
//! that each of the threads generates; without it the whole takes under two minutes.

#[cfg(healdrip_library)]
mod access;
#[cfg(healdrip_library)]
mod asking;
#[cfg(healdrip_library)]
mod file_rules;
#[cfg(healdrip_library)]
mod generated;
#[cfg(healdrip_library)]
mod groups;
#[cfg(healdrip_library)]
mod hostile;
#[cfg(healdrip_library)]
mod limits;
#[cfg(healdrip_library)]
mod stack;
#[cfg(healdrip_library)]
mod threads;

#[cfg(not(healdrip_library))]
#[test]
#[ignore = "HEALDRIP_LIB_DIR is not set, so that nothing is linked"]
fn library() {}
