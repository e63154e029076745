//! Document 01, "Canonical form". Points 1 and 2 (`und` for `root` and before
//! a script, case) are done as the identifier is read; `-` as it is written.

use crate::bytes::lower_text;
use crate::reading::*;
use crate::subtag::{Core, Subtag};
use crate::table::{Kind, Tables};

/// Points 3 and 4: aliases, then order.
pub fn canonical(mut id: Identifier, tables: &Tables) -> Identifier {
    id.main.core = replace(id.main.core, tables);
    // Variants: replaced one by one, then put in order; equal results merge.
    for variant in &mut id.main.variants {
        *variant = tables.alias(Kind::Variant, *variant);
    }
    id.main.variants.sort();
    id.main.variants.dedup();
    // Aliases don't touch extensions. By singleton in byte order, `x` last.
    for extension in &mut id.extensions {
        order(&mut extension.content);
    }
    id.extensions.sort_by_key(|extension| (extension.singleton == b'x', extension.singleton));
    id
}

/// Point 3 for language, script and region, each kind once, in this order.
/// What a language alias brings in goes through the script and region aliases.
pub fn replace(mut core: Core, tables: &Tables) -> Core {
    if let Some(value) = tables.language_alias(core.language) {
        core.language = value.language;
        // Used only where there is none yet.
        core.script = core.script.or(value.script);
        core.region = core.region.or(value.region);
    }
    core.script = core.script.map(|script| tables.alias(Kind::Script, script));
    core.region = core.region.map(|region| tables.alias(Kind::Region, region));
    core
}

/// Point 4 inside an extension.
fn order(content: &mut Content) {
    match content {
        Content::Unicode { attributes, keywords } => {
            attributes.sort();
            attributes.dedup();
            // The sort is stable: of one key the first stands (RFC 6067).
            keywords.sort_by_key(|keyword| keyword.key);
            keywords.dedup_by_key(|keyword| keyword.key);
            for keyword in keywords {
                if keyword.values == [Subtag::TRUE] {
                    keyword.values.clear();
                }
            }
        }
        Content::Transformed { language, fields } => {
            if let Some(language) = language {
                language.variants.sort();
            }
            fields.sort_by_key(|field| field.key);
        }
        // Other extensions keep their order.
        Content::Plain(_) => {}
    }
}

impl LanguagePart {
    /// The language part as text.
    pub fn text(&self) -> Vec<u8> {
        let mut text = self.core.text();
        append(&mut text, &self.variants);
        text
    }
}

impl Identifier {
    /// The identifier as text, with `-` between the subtags.
    pub fn text(&self) -> Vec<u8> {
        let mut text = self.main.text();
        for Extension { singleton, content } in &self.extensions {
            text.extend_from_slice(&[b'-', *singleton]);
            match content {
                Content::Unicode { attributes, keywords } => {
                    append(&mut text, attributes);
                    append_keyed(&mut text, keywords);
                }
                Content::Transformed { language, fields } => {
                    if let Some(language) = language {
                        text.push(b'-');
                        // Inside extensions everything is lower case.
                        text.extend_from_slice(&lower_text(&language.text()));
                    }
                    append_keyed(&mut text, fields);
                }
                Content::Plain(subtags) => append(&mut text, subtags),
            }
        }
        text
    }
}

fn append(text: &mut Vec<u8>, subtags: &[Subtag]) {
    for subtag in subtags {
        text.push(b'-');
        text.extend_from_slice(subtag.bytes());
    }
}

fn append_keyed(text: &mut Vec<u8>, keyed: &[Keyed]) {
    for Keyed { key, values } in keyed {
        append(text, &[*key]);
        append(text, values);
    }
}
