//! Permissions in the architectural view, as [`Capability::permissions`](crate::Capability::permissions) returns them, and the
//! object types that have a meaning of their own.

/// It may be stored through a capability without Store Local Capability.
pub const GLOBAL: u32 = 0x1;
/// Instructions may be fetched.
pub const EXECUTE: u32 = 0x2;
/// Data may be loaded.
pub const LOAD: u32 = 0x4;
/// Data may be stored.
pub const STORE: u32 = 0x8;
/// Capabilities may be loaded with their tags.
pub const LOAD_CAPABILITY: u32 = 0x10;
/// Tagged capabilities may be stored.
pub const STORE_CAPABILITY: u32 = 0x20;
/// Tagged capabilities that aren't global may be stored.
pub const STORE_LOCAL_CAPABILITY: u32 = 0x40;
/// Others may be sealed with its address as their object type.
pub const SEAL: u32 = 0x80;
/// It may be invoked with CInvoke.
pub const CINVOKE: u32 = 0x100;
/// Others may be unsealed whose object type is its address.
pub const UNSEAL: u32 = 0x200;
/// System registers may be accessed.
pub const ACCESS_SYSTEM_REGISTERS: u32 = 0x400;
/// The compartment's identifier may be set.
pub const SET_CID: u32 = 0x800;
/// The four permissions that software defines.
pub const USER_PERMISSIONS: u32 = 0x78000;
/// All of these.
pub const ALL_PERMISSIONS: u32 = 0x78fff;

/// The object type of an unsealed word.
pub const OTYPE_UNSEALED: u32 = 0x3ffff;
/// That of a sealed entry point (sentry).
pub const OTYPE_SENTRY: u32 = 0x3fffe;
/// The least reserved object type.
pub const OTYPE_LEAST_RESERVED: u32 = 0x3fffc;
/// The greatest object type that sealing gives.
pub const OTYPE_GREATEST: u32 = 0x3fffb;
