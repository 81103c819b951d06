/// The version of the header and the archive that this package is made for. The package has a version of
/// its own: it may change where the engine's functions stay.
pub const ENGINE_VERSION: &str = "0.15.0";
