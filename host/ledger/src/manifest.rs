//! The boot manifest.
use crate::{raw, told, Refusal, Release};

/// Checks a manifest before a display starts a release: 16, 3 and 4 in byte order, 23, 24, 25, 26.
///
/// It is accepted exactly if its LMS signature verifies under the key, its digest is the image's, and its release is the settled one: what a
/// [`Report`](crate::Report) says of the display.
///
/// ```
/// use ledger::{check_manifest, Kind, MANIFEST_BYTES, MANIFEST_KEY_BYTES};
///
/// // zeros are no manifest: release 0, a digest, and bytes that are no signature
/// let refused = check_manifest(b"image", &[0; MANIFEST_BYTES], &[0; MANIFEST_KEY_BYTES], 8);
/// assert_eq!(refused.unwrap_err().kind, Kind::BadForm);
/// ```
pub fn check_manifest(
    image: &[u8],
    manifest: &[u8],
    key: &[u8],
    settled_release: Release,
) -> Result<(), Refusal> {
    let answer = raw::ledger_check_manifest(image, manifest, key, settled_release);
    told(answer.refusal, answer.place, ())
}
