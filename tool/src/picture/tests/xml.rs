//! A check that a text is well-formed XML, as far as pictures use it.

/// The texts between the tags; fails where tags, attributes or entities are not in order.
pub fn texts(xml: &str) -> Vec<String> {
    let (mut rest, mut open, mut texts) = (xml.trim_end(), Vec::new(), Vec::new());
    while let Some(tag) = rest.strip_prefix('<') {
        let (inner, after) = tag.split_once('>').expect("a tag without an end");
        assert!(!inner.contains('<'), "{inner}");
        match inner.strip_prefix('/') {
            Some(name) => assert_eq!(open.pop(), Some(name)),
            None => {
                let own = inner.trim_end_matches('/');
                let name = own.split(' ').next().unwrap();
                attributes(&own[name.len()..]);
                if !inner.ends_with('/') {
                    open.push(name);
                }
            }
        }
        let end = after.find('<').unwrap_or(after.len());
        assert!(entities(&after[..end]), "{after}");
        texts.push(after[..end].to_string());
        rest = &after[end..];
    }
    assert!(rest.is_empty() && open.is_empty(), "{rest} {open:?}");
    texts
}

fn attributes(text: &str) {
    let mut names = Vec::new();
    let mut parts = text.split('"');
    while let Some(name) = parts.next().filter(|name| !name.trim().is_empty()) {
        let name = name.strip_prefix(' ').and_then(|name| name.strip_suffix('=')).expect("an attribute's name");
        assert!(!names.contains(&name) && !name.contains(' '), "{name} in {text}");
        names.push(name);
        assert!(entities(parts.next().expect("an attribute's value")), "{text}");
    }
}

fn entities(text: &str) -> bool {
    let known = ["amp;", "lt;", "gt;", "quot;", "#39;"];
    text.split('&').skip(1).all(|after| known.iter().any(|entity| after.starts_with(entity)))
}
