//! The calls that the library exports, as the bindings declare them: each once, in Rust's types.

/// Declares calls of the library. Each becomes a safe function of its name, in which a slice goes over the boundary as a pointer
/// and a length, and a number as it is. It answers the number of document 01.
///
/// Pointer, length and the declaration that the linker is given are all made of the one type that is written here. So a call
/// lends every slice whole, with its own length and as what it is, or it does not compile.
macro_rules! exported {
    ($(
        fn $call:ident($(
            $given:ident: $(&mut [$written:ty])? $(&[$read:ty])? $($number:ident)?
        ),*) -> u64;
    )*) => {
        $(
            #[inline]
            #[allow(unsafe_code)]
            fn $call($($given: $(&mut [$written])? $(&[$read])? $($number)?),*) -> u64 {
                extern "C" {
                    fn $call($(
                        $(_: *mut $written, _: usize)? $(_: *const $read, _: usize)? $(_: $number)?
                    ),*) -> u64;
                }
                // SAFETY: what the library asks of its callers stands at the top of `kpalumere.h`, and slices of Rust keep to
                // all of it. A slice is aligned, not null even where it is empty, as long as it says and below 2^63 bytes;
                // its elements can be read, and whatever is written is a value of theirs. A mutable one overlaps no other,
                // and nobody else has it until the call is over. The library is proved to read and write nothing else, and
                // it keeps nothing. That it has the call with these types is held by a test below.
                unsafe {
                    $call($(
                        $(<[$written]>::as_mut_ptr($given), <[$written]>::len($given))?
                        $(<[$read]>::as_ptr($given), <[$read]>::len($given))?
                        $($number::from($given))?
                    ),*)
                }
            }
        )*

        /// The calls declared here, each with its parameters' types on the library's side of the boundary.
        #[cfg(test)]
        pub(crate) const EXPORTED: &[(&str, &[&str])] = &[$((
            stringify!($call),
            &[$(
                $(concat!("*mut ", stringify!($written)), "usize")?
                $(concat!("*const ", stringify!($read)), "usize")?
                $(stringify!($number))?
            ),*],
        )),*];
    };
}

pub(crate) use exported;

#[cfg(test)]
pub(crate) use tests::calls_of_header;

#[cfg(test)]
mod tests {
    use crate::{all, aspt, build, checksum, flash, guids, mailbox, version, view, wrong};
    use std::collections::BTreeMap;
    use std::fs;
    use std::path::Path;

    /// Calls by their names, each with its parameters' types on the library's side of the boundary.
    pub(crate) type Calls = BTreeMap<String, Vec<String>>;

    fn calls_of_bindings() -> Calls {
        let every = [
            all::EXPORTED,
            aspt::EXPORTED,
            build::EXPORTED,
            checksum::EXPORTED,
            flash::EXPORTED,
            guids::EXPORTED,
            mailbox::EXPORTED,
            version::EXPORTED,
            view::EXPORTED,
            wrong::EXPORTED,
        ];
        let calls = every.iter().copied().flatten();
        calls
            .map(|(call, types)| {
                let types = types.iter().map(|one| one.to_string());
                (call.to_string(), types.collect())
            })
            .collect()
    }

    /// What the library's own source exports.
    fn calls_of_library() -> Calls {
        let root = Path::new(env!("CARGO_MANIFEST_DIR")).join("../..");
        let files = fs::read_dir(root.join("crates/kpalumere/src")).expect("the library has files");
        files
            .flat_map(|file| {
                let path = file.expect("the folder can be read").path();
                let text = fs::read_to_string(path).expect("a file of the library is text");
                let declarations = text.split("pub extern \"C\" fn ").skip(1);
                let calls = declarations.map(|one| call_declared(one, types_of_library));
                calls.collect::<Vec<_>>()
            })
            .collect()
    }

    /// What the header declares. Nothing else in it has the type of an answer at a line's start.
    pub(crate) fn calls_of_header() -> Calls {
        let declarations = include_str!("../../kpalumere.h").split("\nuint64_t ");
        declarations
            .skip(1)
            .map(|one| call_declared(one, types_of_header))
            .collect()
    }

    /// The call that a text begins with, in Rattle or C: its name, and its parameters in parentheses.
    fn call_declared(text: &str, types: fn(&str) -> Vec<String>) -> (String, Vec<String>) {
        let (call, rest) = text.split_once('(').expect("a name is before parameters");
        let (parameters, _) = rest.split_once(')').expect("parameters come to an end");
        let parameters = parameters.split(',').map(str::trim);
        let types = parameters.filter(|one| !one.is_empty()).flat_map(types);
        (call.to_string(), types.collect())
    }

    /// The types that a parameter in Rattle is on the boundary. Its numbers have the names that Rust's have.
    fn types_of_library(parameter: &str) -> Vec<String> {
        let (_, declared) = parameter.split_once(": ").expect("a parameter has a type");
        let slice = |start| declared.strip_prefix(start)?.strip_suffix(']');
        match (slice("&mut ["), slice("&[")) {
            (Some(written), _) => vec![format!("*mut {written}"), "usize".to_string()],
            (_, Some(read)) => vec![format!("*const {read}"), "usize".to_string()],
            _ => vec![declared.to_string()],
        }
    }

    /// The type that a parameter in C is in Rust.
    fn types_of_header(parameter: &str) -> Vec<String> {
        let words: Vec<&str> = parameter.split_whitespace().collect();
        vec![match words[..] {
            ["const", read, name] if name.starts_with('*') => format!("*const {}", number(read)),
            [written, name] if name.starts_with('*') => format!("*mut {}", number(written)),
            [other, _] => number(other).to_string(),
            _ => panic!("{parameter:?} is neither a pointer nor a number"),
        }]
    }

    /// A number's type in C, as Rust has it.
    fn number(name: &str) -> &str {
        match name {
            "uint8_t" => "u8",
            "uint16_t" => "u16",
            "uint32_t" => "u32",
            "uint64_t" => "u64",
            "size_t" => "usize",
            _ => panic!("{name:?} is no number of the boundary"),
        }
    }

    #[test]
    fn every_call_is_declared_with_the_types_that_the_library_has() {
        assert_eq!(calls_of_bindings(), calls_of_library());
    }

    #[test]
    fn the_header_declares_every_call_with_the_same_types() {
        assert_eq!(calls_of_header(), calls_of_library());
    }
}
