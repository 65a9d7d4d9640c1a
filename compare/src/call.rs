//! One call with everything that is lent to it, and what a side leaves of it.

use stanquivol::calls as library;

/// The eleven calls.
#[derive(Clone, Copy, Debug, PartialEq, Eq, PartialOrd, Ord)]
pub enum Verb {
    Setup,
    Seal,
    Open,
    Wrap,
    Unwrap,
    Unpack,
    Pack,
    Shuffle,
    Invert,
    Mask,
    Sha512,
}

impl Verb {
    pub const fn name(self) -> &'static str {
        match self {
            Verb::Setup => "setup",
            Verb::Seal => "seal",
            Verb::Open => "open",
            Verb::Wrap => "wrap",
            Verb::Unwrap => "unwrap",
            Verb::Unpack => "unpack",
            Verb::Pack => "pack",
            Verb::Shuffle => "shuffle",
            Verb::Invert => "invert",
            Verb::Mask => "mask",
            Verb::Sha512 => "sha512",
        }
    }
}

/// A call before it is made. Buffers stand in the order of the call's parameters.
#[derive(Clone, Debug)]
pub struct Call {
    pub verb: Verb,
    /// What is special about the input, in a few words.
    pub kind: String,
    /// Setup's set byte.
    pub set: u8,
    /// Bytes that are read.
    pub read: Vec<Vec<u8>>,
    /// The list that `pack` or `invert` reads.
    pub list: Vec<u16>,
    /// Bytes that are written, as they are lent.
    pub written: Vec<Vec<u8>>,
    /// Numbers that are written, as they are lent: the work area, or what `unpack`, `shuffle`, `invert` give.
    pub numbers: Vec<u16>,
}

type Setting = fn(u8, &[u8], &mut [u8], &mut [u8], &mut [u16]) -> u16;
type Sealing = fn(&[u8], &[u8], &[u8], &mut [u8], &mut [u16]) -> u16;
type Opening = fn(&[u8], &[u8], &mut [u8], &mut [u16]) -> u16;
type ToNumbers = fn(&[u8], &mut [u16]) -> u16;
type ToBytes = fn(&[u16], &mut [u8]) -> u16;
type BytesToBytes = fn(&[u8], &mut [u8]) -> u16;
type NumbersToNumbers = fn(&[u16], &mut [u16]) -> u16;

/// An implementation of the eleven calls.
pub struct Side {
    pub setup: Setting,
    pub seal: Sealing,
    pub open: Opening,
    pub wrap: Sealing,
    pub unwrap: Opening,
    pub unpack: ToNumbers,
    pub pack: ToBytes,
    pub shuffle: ToNumbers,
    pub invert: NumbersToNumbers,
    pub mask: BytesToBytes,
    pub sha512: BytesToBytes,
}

/// The proved library.
pub const LIBRARY: Side = Side {
    setup: library::setup,
    seal: library::seal,
    open: library::open,
    wrap: library::wrap,
    unwrap: library::unwrap,
    unpack: library::unpack,
    pack: library::pack,
    shuffle: library::shuffle,
    invert: library::invert,
    mask: library::mask,
    sha512: library::sha512,
};

/// The second implementation.
pub const PEER: Side = Side {
    setup: peer::setup,
    seal: peer::seal,
    open: peer::open,
    wrap: peer::wrap,
    unwrap: peer::unwrap,
    unpack: peer::unpack,
    pack: peer::pack,
    shuffle: peer::shuffle,
    invert: peer::invert,
    mask: peer::mask,
    sha512: peer::sha512,
};

/// What a side left: the value that it returned, and every buffer.
#[derive(Clone, Debug, PartialEq, Eq)]
pub struct Left {
    pub returned: u16,
    pub written: Vec<Vec<u8>>,
    pub numbers: Vec<u16>,
    /// What was written that is not lent for writing, in words.
    pub trespass: Option<String>,
}

/// A buffer with a margin on both sides that nobody may write to.
struct Fenced<T> {
    all: Vec<T>,
    margin: T,
}

const MARGIN: usize = 32;

impl<T: Copy + PartialEq> Fenced<T> {
    fn new(content: &[T], margin: T) -> Self {
        let fence = [margin; MARGIN];
        Fenced {
            all: [&fence, content, &fence].concat(),
            margin,
        }
    }

    fn content(&self) -> &[T] {
        &self.all[MARGIN..self.all.len() - MARGIN]
    }

    fn lent(&mut self) -> &mut [T] {
        let end = self.all.len() - MARGIN;
        &mut self.all[MARGIN..end]
    }

    fn is_intact(&self) -> bool {
        let end = self.all.len() - MARGIN;
        self.all[..MARGIN]
            .iter()
            .chain(&self.all[end..])
            .all(|&x| x == self.margin)
    }
}

impl Side {
    /// Makes the call on copies of all buffers.
    pub fn make(&self, call: &Call) -> Left {
        let read: Vec<Fenced<u8>> = call.read.iter().map(|bytes| Fenced::new(bytes, 0xA5)).collect();
        let list = Fenced::new(&call.list, 0xA5A5);
        let mut written: Vec<Fenced<u8>> = call.written.iter().map(|bytes| Fenced::new(bytes, 0x5A)).collect();
        let mut numbers = Fenced::new(&call.numbers, 0x5A5A);
        let returned = self.dispatch(call, &read, &list, &mut written, &mut numbers);
        let mut trespass = None;
        if !read
            .iter()
            .zip(&call.read)
            .all(|(now, before)| now.is_intact() && now.content() == before)
        {
            trespass = Some("bytes that are only read were changed".into());
        }
        if !list.is_intact() || list.content() != call.list {
            trespass = Some("a list that is only read was changed".into());
        }
        if !numbers.is_intact() || !written.iter().all(Fenced::is_intact) {
            trespass = Some("something was written beside a buffer".into());
        }
        Left {
            returned,
            written: written.iter().map(|bytes| bytes.content().to_vec()).collect(),
            numbers: numbers.content().to_vec(),
            trespass,
        }
    }

    fn dispatch(
        &self,
        call: &Call,
        read: &[Fenced<u8>],
        list: &Fenced<u16>,
        written: &mut [Fenced<u8>],
        numbers: &mut Fenced<u16>,
    ) -> u16 {
        let read: Vec<&[u8]> = read.iter().map(Fenced::content).collect();
        let mut written: Vec<&mut [u8]> = written.iter_mut().map(Fenced::lent).collect();
        let (list, numbers) = (list.content(), numbers.lent());
        match (call.verb, &read[..], &mut written[..]) {
            (Verb::Setup, [random], [public, private]) => (self.setup)(call.set, random, public, private, numbers),
            (Verb::Seal, [key, random, message], [cipher]) => (self.seal)(key, random, message, cipher, numbers),
            (Verb::Wrap, [key, random, secret], [cipher]) => (self.wrap)(key, random, secret, cipher, numbers),
            (Verb::Open, [key, cipher], [message]) => (self.open)(key, cipher, message, numbers),
            (Verb::Unwrap, [key, cipher], [secret]) => (self.unwrap)(key, cipher, secret, numbers),
            (Verb::Unpack, [bytes], []) => (self.unpack)(bytes, numbers),
            (Verb::Pack, [], [bytes]) => (self.pack)(list, bytes),
            (Verb::Shuffle, [bytes], []) => (self.shuffle)(bytes, numbers),
            (Verb::Invert, [], []) => (self.invert)(list, numbers),
            (Verb::Mask, [seed], [mask]) => (self.mask)(seed, mask),
            (Verb::Sha512, [bytes], [digest]) => (self.sha512)(bytes, digest),
            _ => unreachable!("a case with other buffers than its call has"),
        }
    }
}

/// What is wrong with two outcomes of a call, in words; `None` if they agree and keep the rules of the answers.
pub fn fault(call: &Call, library: &Left, peer: &Left) -> Option<String> {
    for (side, left) in [("library", library), ("peer", peer)] {
        if let Some(words) = &left.trespass {
            return Some(format!("{side}: {words}"));
        }
    }
    if library.returned != peer.returned {
        return Some(format!(
            "the library answers {}, the peer {}",
            said(library),
            said(peer)
        ));
    }
    for (i, (one, other)) in library.written.iter().zip(&peer.written).enumerate() {
        if let Some(place) = first_difference(one, other) {
            return Some(format!(
                "after answer {}, output {i} differs from place {place} on: library {:02x}, peer {:02x}",
                said(library),
                one[place],
                other[place]
            ));
        }
    }
    if let Some(place) = first_difference(&library.numbers, &peer.numbers) {
        return Some(format!(
            "after answer {}, the numbers differ from place {place} on: library {}, peer {}",
            said(library),
            library.numbers[place],
            peer.numbers[place]
        ));
    }
    broken_rule(call, library).map(|words| format!("after answer {}, {words}", said(library)))
}

/// The answer number and the count.
fn said(left: &Left) -> String {
    format!("{} with count {}", left.returned % 256, left.returned / 256)
}

fn first_difference<T: PartialEq>(one: &[T], other: &[T]) -> Option<usize> {
    one.iter().zip(other).position(|(a, b)| a != b)
}

/// The rule of its answer that an outcome breaks, if it does.
fn broken_rule(call: &Call, left: &Left) -> Option<&'static str> {
    let has_work = matches!(
        call.verb,
        Verb::Setup | Verb::Seal | Verb::Open | Verb::Wrap | Verb::Unwrap
    );
    let untouched = left.written == call.written && left.numbers == call.numbers;
    let work_is_zero = left.numbers.iter().all(|&number| number == 0);
    let all_zero = work_is_zero && left.written.iter().flatten().all(|&byte| byte == 0);
    match left.returned % 256 {
        0 => (has_work && !work_is_zero).then_some("the work area is not zero"),
        1 | 2 | 11 => (!untouched).then_some("something was written"),
        3..=10 => (!all_zero).then_some("an output or the work area is not zero"),
        _ => Some("there is no such number"),
    }
    .or((!left.returned.is_multiple_of(256) && left.returned > 255).then_some("a refusal has a count"))
}
