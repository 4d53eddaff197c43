//! The pictures: any bytes are drawn.

use std::collections::BTreeSet;

use crate::{html, picture};

/// Draws an area, of which it is known whether it is sound, as text and as a page.
pub fn drawn(bytes: &[u8], sound: bool) {
    let text = picture::text(bytes);
    assert!(text.bytes().all(|byte| matches!(byte, b'\n' | 0x20..=0x7e)), "{text}");
    assert_eq!(sound, !text.contains("<- broken: ") && !text.starts_with("no property area: "), "{text}");
    let page = html::page("an area", bytes);
    assert!(page.starts_with("<!DOCTYPE html>\n") && page.ends_with("</html>\n"));
    let (from, to) = (quoted(&page, " href=\"#"), quoted(&page, " id=\""));
    assert!(from.is_subset(&to), "a link of the page leads nowhere: {:?}, in\n{text}", from.difference(&to));
}

/// What stands behind a text, up to the next quote.
fn quoted<'p>(page: &'p str, before: &str) -> BTreeSet<&'p str> {
    page.split(before).skip(1).filter_map(|rest| rest.split('"').next()).collect()
}
