// Plain Rust beside the word `read` of crates/try_valid: reads a new view frame, borrowing its bytes. Words: read COUNT and the eight sizes.
use std::io::Read;

struct Params {
    f: u32,
    numbers: u32,
    views: u32,
    clients: u32,
    stamps: u32,
}

#[allow(dead_code)]
struct Request<'a> {
    client: u32,
    stamp: u32,
    body: &'a [u8],
    sig: &'a [u8],
}

#[allow(dead_code)]
struct Signer<'a> {
    agree: u32,
    sig: &'a [u8],
}

#[allow(dead_code)]
struct Proof<'a> {
    view: u32,
    number: u32,
    entry: Option<Request<'a>>,
    signers: Vec<Signer<'a>>,
}

#[allow(dead_code)]
struct Change<'a> {
    view: u32,
    agree: u32,
    proofs: Vec<Proof<'a>>,
    sig: &'a [u8],
}

#[allow(dead_code)]
struct NewView<'a> {
    view: u32,
    changes: Vec<Change<'a>>,
    sig: &'a [u8],
}

struct Reader<'a>(&'a [u8]);

impl<'a> Reader<'a> {
    fn fixed(&mut self, len: usize) -> Option<&'a [u8]> {
        let (part, rest) = self.0.split_at_checked(len)?;
        self.0 = rest;
        Some(part)
    }

    fn number(&mut self, low: u32, high: u32) -> Option<u32> {
        let n = u32::from_be_bytes(self.fixed(4)?.try_into().ok()?);
        (low <= n && n <= high).then_some(n)
    }

    fn entry(&mut self, p: &Params) -> Option<Option<Request<'a>>> {
        if self.number(0, 1)? == 0 {
            return Some(None);
        }
        let client = self.number(0, p.clients - 1)?;
        let stamp = self.number(1, p.stamps)?;
        let (body, sig) = (self.fixed(544)?, self.fixed(8192)?);
        Some(Some(Request { client, stamp, body, sig }))
    }

    fn signers(&mut self, p: &Params) -> Option<Vec<Signer<'a>>> {
        let count = self.number(2 * p.f + 1, 2 * p.f + 1)?;
        let (mut signers, mut least) = (Vec::new(), 0);
        for _ in 0..count {
            let agree = self.number(least, 3 * p.f)?;
            least = agree + 1;
            signers.push(Signer { agree, sig: self.fixed(8192)? });
        }
        Some(signers)
    }

    fn proofs(&mut self, p: &Params, below: u32) -> Option<Vec<Proof<'a>>> {
        let count = self.number(0, p.numbers)?;
        let (mut proofs, mut least) = (Vec::new(), 1);
        for _ in 0..count {
            let view = self.number(0, below - 1)?;
            let number = self.number(least, p.numbers)?;
            least = number + 1;
            let (entry, signers) = (self.entry(p)?, self.signers(p)?);
            proofs.push(Proof { view, number, entry, signers });
        }
        Some(proofs)
    }

    fn new_view(&mut self, p: &Params) -> Option<NewView<'a>> {
        if self.fixed(1)? != [5] {
            return None;
        }
        let view = self.number(1, p.views - 1)?;
        let count = self.number(2 * p.f + 1, 2 * p.f + 1)?;
        let (mut changes, mut least) = (Vec::new(), 0);
        for _ in 0..count {
            self.number(view, view)?;
            let agree = self.number(least, 3 * p.f)?;
            least = agree + 1;
            let (proofs, sig) = (self.proofs(p, view)?, self.fixed(8192)?);
            changes.push(Change { view, agree, proofs, sig });
        }
        let sig = self.fixed(8192)?;
        self.0.is_empty().then_some(NewView { view, changes, sig })
    }
}

fn main() {
    let words: Vec<u32> = std::env::args().skip(2).map(|w| w.parse().unwrap()).collect();
    let p = Params { f: words[1], numbers: words[4], views: words[5], clients: words[6], stamps: words[7] };
    let mut bytes = Vec::new();
    std::io::stdin().read_to_end(&mut bytes).unwrap();
    let mut found = 0;
    for _ in 0..words[0] {
        if std::hint::black_box(Reader(std::hint::black_box(&bytes)).new_view(&p)).is_some() {
            found += 1;
        }
    }
    println!("read {found} times, {} bytes", bytes.len());
}
