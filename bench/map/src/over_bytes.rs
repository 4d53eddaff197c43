// The build script includes this file behind the original's text: the oracle's map over lent bytes, as it stands.
include!("../../../oracle/original/src/over_bytes.rs");
