//! What the wrapper writes down against include/iommufd.h, which is read here.
use iommufd::command::{AllowIovas, Copy, Destroy, IoasAlloc, IovaRanges, Map, Unmap};
use iommufd::raw::{self, Explanation, Head, Host, Mapping, Number, Object, Reserved};
use iommufd::{request, Errno, Range, Reason, Table, FIXED, READABLE, WRITEABLE};
use std::collections::BTreeMap;
use std::mem::{align_of, offset_of, size_of};

const HEADER: &str = concat!(env!("CARGO_MANIFEST_DIR"), "/../../include/iommufd.h");

fn header() -> String {
    std::fs::read_to_string(HEADER).expect("the header is in include/")
}

fn number(text: &str) -> Option<u64> {
    let digits = text.trim_end_matches('u');
    digits.strip_prefix("0x").map_or_else(|| digits.parse().ok(), |hex| u64::from_str_radix(hex, 16).ok())
}

/// The numbers that the header defines, by their names without IOMMUFD_.
fn defined() -> BTreeMap<String, u64> {
    let words = |line: &str| -> Option<(String, u64)> {
        let mut words = line.strip_prefix("#define IOMMUFD_")?.split_whitespace();
        Some((words.next()?.to_string(), number(words.next()?)?))
    };
    header().lines().filter_map(words).collect()
}

/// What stands between two texts, in each line that has them.
fn between<'a>(text: &'a str, before: &'a str, after: &'a str) -> impl Iterator<Item = &'a str> {
    text.lines().filter_map(move |line| line.split_once(before)?.1.split_once(after).map(|(part, _)| part))
}

/// The sizes that the header states, by the names of the structs without iommufd_.
fn sizes() -> BTreeMap<String, u64> {
    let header = header();
    let of = |stated: &str| -> Option<(String, u64)> {
        let (name, size) = stated.split_once(", ")?;
        Some((name.to_string(), number(size)?))
    };
    between(&header, "IOMMUFD_SIZE(struct iommufd_", ")").filter_map(of).collect()
}

fn named(list: &[(&str, u64)]) -> BTreeMap<String, u64> {
    list.iter().map(|(name, number)| (name.to_string(), *number)).collect()
}

#[test]
fn errnos() {
    let ours: BTreeMap<String, u64> = Errno::ALL.iter().map(|errno| (errno.name().to_string(), errno.number() as u64)).collect();
    let theirs: BTreeMap<String, u64> = defined().into_iter().filter(|(name, _)| name.starts_with('E')).collect();
    assert_eq!(ours.len(), 15);
    assert_eq!(ours, theirs);
}

/// The sentences of the header's cases, by what stands behind a beginning of their names.
fn told(beginning: &str) -> BTreeMap<String, String> {
    let header = header();
    let of = |case: &str| case.split_once(": return \"").map(|(name, sentence)| (name.to_string(), sentence.to_string()));
    between(&header, &format!("case IOMMUFD_{beginning}"), "\";").filter_map(of).collect()
}

#[test]
fn sentences() {
    let ours: BTreeMap<String, String> = Errno::ALL.iter().map(|errno| (errno.name().to_string(), errno.to_string())).collect();
    let theirs: BTreeMap<String, String> = told("").into_iter().filter(|(name, _)| !name.starts_with("REASON_")).collect();
    assert_eq!(ours, theirs);
}

/// The numbers of an enum of the header, by what stands behind a beginning of their names.
fn numbered(beginning: &str) -> BTreeMap<String, u64> {
    let of = |line: &str| -> Option<(String, u64)> {
        let (name, rest) = line.strip_prefix(&format!("\tIOMMUFD_{beginning}"))?.split_once(" = ")?;
        Some((name.to_string(), number(rest.split_once(',')?.0)?))
    };
    header().lines().filter_map(of).collect()
}

/// NO_SPACE is NoSpace.
fn camel(name: &str) -> String {
    name.split('_').map(|word| word[..1].to_string() + &word[1..].to_lowercase()).collect()
}

/// Every reason has the header's number, name and sentence. The sentence goes on where a reason names something.
#[test]
fn reasons() {
    let (numbers, sentences) = (numbered("REASON_"), told("REASON_"));
    assert_eq!((numbers.len(), sentences.len()), (22, 22));
    for (name, code) in &numbers {
        let reason = Reason::of(&Explanation { reason: *code, ..Explanation::default() });
        let Some(reason) = reason else {
            assert_eq!((name.as_str(), *code), ("ACCEPTED", 0));
            continue;
        };
        let (debug, text) = (format!("{reason:?}"), reason.to_string());
        assert_eq!(debug.split('(').next(), Some(camel(name).as_str()));
        assert_eq!(text.split(':').next(), Some(sentences[name].as_str()));
        assert_eq!(text.contains(':'), debug.contains('('), "{text}");
    }
    let other = Reason::of(&Explanation { reason: 22, error: 5, ..Explanation::default() });
    assert_eq!(other, Some(Reason::Other(22)));
    assert_eq!(other.map(|reason| reason.to_string()), Some("no reason of this interface: 22".to_string()));
}

#[test]
fn requests() {
    let ours = named(&[
        ("DESTROY", request::DESTROY.into()),
        ("IOAS_ALLOC", request::IOAS_ALLOC.into()),
        ("ALLOW_IOVAS", request::ALLOW_IOVAS.into()),
        ("COPY", request::COPY.into()),
        ("IOVA_RANGES", request::IOVA_RANGES.into()),
        ("MAP", request::MAP.into()),
        ("UNMAP", request::UNMAP.into()),
    ]);
    let theirs: BTreeMap<String, u64> = defined().into_iter().filter(|(_, number)| (0x3B00..0x3C00).contains(number)).collect();
    assert_eq!(ours, theirs);
}

#[test]
fn flags_and_counts() {
    let defined = defined();
    let ours = named(&[
        ("FIXED", FIXED.into()),
        ("WRITEABLE", WRITEABLE.into()),
        ("READABLE", READABLE.into()),
        ("RIGHT_WRITE", raw::RIGHT_WRITE.into()),
        ("RIGHT_READ", raw::RIGHT_READ.into()),
        ("OBJECTS", raw::OBJECTS as u64),
        ("MAPPINGS", raw::MAPPINGS as u64),
        ("INDEX_WORDS", raw::INDEX_WORDS as u64),
        ("HOST_WORDS", raw::HOST_WORDS as u64),
    ]);
    for (name, number) in ours {
        assert_eq!(defined.get(&name), Some(&number), "{name}");
    }
}

/// The kinds of the host calls: an enum in the header.
#[test]
fn kinds() {
    let ours = named(&[
        ("FRESH", Host::FRESH.into()),
        ("BIND", Host::BIND.into()),
        ("ATTACH", Host::ATTACH.into()),
        ("DETACH", Host::DETACH.into()),
        ("REACH", Host::REACH.into()),
        ("CHARGE", Host::CHARGE.into()),
        ("NEXT", Host::NEXT.into()),
    ]);
    assert_eq!(ours, numbered("HOST_"));
}

/// Numbers that all differ come to the places that the header lists.
#[test]
fn words() {
    let reserved = Reserved { count: 2, spare: 99, starts: [3, 4, 5, 6], lasts: [7, 8, 9, 10] };
    assert_eq!(Host::fresh(1).words, [1, 0, 0, 0, 0, 0, 0, 0, 0, 0]);
    assert_eq!(Host::bind(1, &reserved).words, [1, 2, 3, 4, 5, 6, 7, 8, 9, 10]);
    assert_eq!(Host::attach(1, 2).words, [1, 2, 0, 0, 0, 0, 0, 0, 0, 0]);
    assert_eq!(Host::detach(1).words, [1, 0, 0, 0, 0, 0, 0, 0, 0, 0]);
    assert_eq!(Host::reach(1, 2, 3, 4).words, [1, 2, 3, 4, 0, 0, 0, 0, 0, 0]);
    assert_eq!(Host::charge().words, [0; 10]);
    assert_eq!(Host::next(1, 2).words, [1, 2, 0, 0, 0, 0, 0, 0, 0, 0]);
}

/// The header, the wrapper and the archive are of one version.
#[test]
fn version() {
    assert_eq!(defined().get("VERSION"), Some(&raw::VERSION.into()));
    assert_eq!(iommufd::archive_version(), raw::VERSION);
}

#[test]
fn sizes_of_structs_and_commands() {
    let ours = named(&[
        ("object", size_of::<Object>() as u64),
        ("head", size_of::<Head>() as u64),
        ("mapping", size_of::<Mapping>() as u64),
        ("table", size_of::<Table>() as u64),
        ("reserved", size_of::<Reserved>() as u64),
        ("number", size_of::<Number>() as u64),
        ("explanation", size_of::<Explanation>() as u64),
        ("destroy_cmd", Destroy::SIZE as u64),
        ("ioas_alloc_cmd", IoasAlloc::SIZE as u64),
        ("allow_iovas_cmd", AllowIovas::SIZE as u64),
        ("copy_cmd", Copy::SIZE as u64),
        ("iova_ranges_cmd", IovaRanges::SIZE as u64),
        ("map_cmd", Map::SIZE as u64),
        ("unmap_cmd", Unmap::SIZE as u64),
        ("range", size_of::<Range>() as u64),
    ]);
    assert_eq!(ours, sizes());
}

/// The offsets as C has them on the three architectures: each field at a multiple of its own size, nothing between.
#[test]
fn offsets() {
    let object = [
        offset_of!(Object, kind),
        offset_of!(Object, home),
        offset_of!(Object, bitmap),
        offset_of!(Object, reserved_count),
        offset_of!(Object, allow_count),
        offset_of!(Object, reserved_starts),
        offset_of!(Object, reserved_lasts),
        offset_of!(Object, allow_starts),
        offset_of!(Object, allow_lasts),
    ];
    assert_eq!(object, [0, 4, 8, 16, 20, 24, 56, 88, 152]);
    assert_eq!([offset_of!(Head, limit), offset_of!(Head, objects)], [0, 8]);
    let mapping = [
        offset_of!(Mapping, space),
        offset_of!(Mapping, rights),
        offset_of!(Mapping, founder),
        offset_of!(Mapping, backing),
        offset_of!(Mapping, address),
        offset_of!(Mapping, length),
        offset_of!(Mapping, memory),
    ];
    assert_eq!(mapping, [0, 4, 8, 12, 16, 24, 32]);
    let reserved = [offset_of!(Reserved, count), offset_of!(Reserved, spare), offset_of!(Reserved, starts), offset_of!(Reserved, lasts)];
    assert_eq!(reserved, [0, 4, 8, 40]);
    assert_eq!([offset_of!(Number, result), offset_of!(Number, value)], [0, 8]);
    let explanation = [
        offset_of!(Explanation, reason),
        offset_of!(Explanation, error),
        offset_of!(Explanation, number),
        offset_of!(Explanation, start),
        offset_of!(Explanation, length),
    ];
    assert_eq!(explanation, [0, 8, 16, 24, 32]);
    let aligned = [
        align_of::<Object>(),
        align_of::<Head>(),
        align_of::<Mapping>(),
        align_of::<Reserved>(),
        align_of::<Number>(),
        align_of::<Explanation>(),
        align_of::<Table>(),
    ];
    assert_eq!(aligned, [8; 7]);
}

/// A number has one case, and a number without a case keeps its value.
#[test]
fn every_number_is_told() {
    for errno in Errno::ALL {
        assert_eq!(Errno::from_number(errno.number()), errno);
        assert_eq!(errno.result(), -errno.number());
    }
    for number in [0, 3, 118, i32::MAX] {
        let errno = Errno::from_number(number);
        assert_eq!(errno, Errno::Other(number));
        assert_eq!((errno.number(), errno.name()), (number, "?"));
        assert_eq!(errno.to_string(), format!("no errno of this interface: {number}"));
    }
    let _: &dyn std::error::Error = &Errno::Inval;
}
