//! A small check that a text is well-formed XML, as far as the pictures use it.

/// Panics at what is not well-formed. Gives the texts between the tags.
pub fn texts(xml: &str) -> Vec<&str> {
    let mut open = Vec::new();
    let mut texts = Vec::new();
    let mut rest = xml;
    while let Some(start) = rest.find('<') {
        let text = &rest[..start];
        check_characters(text);
        assert!(
            !open.is_empty() || text.is_empty(),
            "a text outside: {}",
            text
        );
        texts.push(text);
        let end = start + rest[start..].find('>').expect("the end of a tag");
        let tag = &rest[start + 1..end];
        rest = &rest[end + 1..];
        if let Some(name) = tag.strip_prefix('/') {
            assert_eq!(open.pop(), Some(name));
        } else if let Some(tag) = tag.strip_suffix('/') {
            element(tag);
        } else {
            open.push(element(tag));
        }
        let is_root = open.is_empty();
        assert!(
            !is_root || rest == "\n",
            "something after the root: {}",
            rest
        );
    }
    assert_eq!((open.len(), rest), (0, "\n"));
    texts.retain(|text| !text.trim().is_empty());
    texts
}

/// The name of an element whose attributes are name="value", each once.
fn element(tag: &str) -> &str {
    let (name, mut rest) = tag.split_once(' ').unwrap_or((tag, ""));
    assert!(is_name(name), "no name: {}", tag);
    let mut names = Vec::new();
    while !rest.is_empty() {
        let (attribute, after) = rest.split_once("=\"").expect("an attribute");
        let (value, after) = after.split_once('"').expect("the end of a value");
        assert!(is_name(attribute) && !names.contains(&attribute), "{}", tag);
        names.push(attribute);
        check_characters(value);
        assert!(after.is_empty() || after.starts_with(' '), "{}", tag);
        rest = after.trim_start();
    }
    name
}

fn is_name(name: &str) -> bool {
    let letter = |letter: char| letter.is_ascii_alphabetic() || letter == '-';
    !name.is_empty() && name.chars().all(letter)
}

/// No `<`, no `>`, no control character, and `&` only where it begins one of
/// the three names.
fn check_characters(text: &str) {
    let plain = ["&amp;", "&lt;", "&gt;"]
        .iter()
        .fold(text.to_string(), |text, name| text.replace(name, ""));
    let bad = |letter: char| "<>&".contains(letter) || (letter.is_control() && letter != '\n');
    assert!(!plain.contains(bad), "{:?}", text);
}

#[test]
fn what_is_not_well_formed_is_found() {
    for bad in [
        "<a></b>\n",
        "<a>\n",
        "<a/><b/>\n",
        "x<a/>\n",
        "<a b=1/>\n",
        "<a b=\"1\" b=\"2\"/>\n",
        "<a>&</a>\n",
        "<a>\u{7}</a>\n",
        "<a b=\"<\"/>\n",
    ] {
        assert!(std::panic::catch_unwind(|| texts(bad)).is_err(), "{}", bad);
    }
    assert_eq!(
        texts("<a b=\"1\" c-d=\"2\">x<e/>&amp;</a>\n"),
        ["x", "&amp;"]
    );
}
