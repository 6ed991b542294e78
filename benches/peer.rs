//! A link resolver in plain Rust for the rules of `benches/request` alone, which measures `openlink` beside it.
//!
//!     peer resolve REGISTRY QUERY         prints the menu; status 1 if it is empty
//!     peer serve REGISTRY PORT COUNT      answers COUNT connections that request /openurl.txt
//!
//! A registry has a line `NAME tab CODE tab TABLE` for each target, as that of `openlink`; the code is not read. All
//! tables have one index by ISSN and ISBN. A value is decoded only if a rule or the index needs it, and buffers are
//! kept from request to request. Left out are the other pages, the fields of a head, the limits of tables and queries,
//! byte order marks, and running out of memory.

use std::borrow::Cow;
use std::collections::HashMap;
use std::error::Error;
use std::io::{self, Read, Write};
use std::net::{TcpListener, TcpStream};
use std::time::Duration;
use std::{env, fs, process};

type Fallible<T> = Result<T, Box<dyn Error>>;

// ---- variables

/// The variables of the rules and the keys of numbers, in the order of `NAMES`.
#[derive(Clone, Copy)]
#[rustfmt::skip]
enum Name {
    TitleId, FirstDate, LastDate, Access, Genre, Date, Volume, Issue, Page, Article, Author, Issn, Eissn, Isbn,
}

use Name::*;

#[rustfmt::skip]
const NAMES: [&str; 14] = [
    "title_id", "date_first_issue_online", "date_last_issue_online", "access_type", "rft.genre", "rft.date",
    "rft.volume", "rft.issue", "rft.spage", "rft.atitle", "rft.aulast", "rft.issn", "rft.eissn", "rft.isbn",
];

fn place_of(name: &[u8]) -> Option<usize> {
    NAMES.iter().position(|known| known.as_bytes() == name)
}

/// An ISSN or ISBN without hyphens and spaces, in capitals. A short one has its length as the last byte.
#[derive(PartialEq, Eq, Hash)]
enum Number {
    Short([u8; 16]),
    Long(Box<[u8]>),
}

impl Number {
    fn new(text: &[u8]) -> Option<Number> {
        let bytes = text.iter().filter(|byte| !matches!(byte, b'-' | b' ')).map(u8::to_ascii_uppercase);
        let mut short = [0; 16];
        let mut length = 0;
        for byte in bytes.clone() {
            if length == 15 {
                return Some(Number::Long(bytes.collect()));
            }
            (short[length], length) = (byte, length + 1);
        }
        short[15] = length as u8;
        (length > 0).then_some(Number::Short(short))
    }
}

// ---- tables

struct Target {
    name: String,
    text: String,
    /// Where each row begins and ends in the text.
    rows: Vec<(u32, u32)>,
    /// The place in `NAMES` of each column, up to the last that has one.
    columns: Vec<Option<usize>>,
}

impl Target {
    fn cells(&self, row: u32) -> [&[u8]; NAMES.len()] {
        let (start, end) = self.rows[row as usize];
        let mut cells = [&b""[..]; NAMES.len()];
        let line = &self.text.as_bytes()[start as usize..end as usize];
        for (column, cell) in self.columns.iter().zip(cells_of(line)) {
            if let Some(place) = column {
                cells[*place] = cell;
            }
        }
        cells
    }
}

fn cells_of(line: &[u8]) -> impl Iterator<Item = &[u8]> {
    line.split(|byte| *byte == b'\t')
}

/// A row that has a number, and the place after it in the list of all places of that number.
struct Place {
    target: u32,
    row: u32,
    next: Option<u32>,
}

#[derive(Default)]
struct Registry {
    targets: Vec<Target>,
    places: Vec<Place>,
    /// The first and the last place of each number.
    numbers: HashMap<Number, (u32, u32)>,
}

impl Registry {
    fn read(path: &str) -> Fallible<Registry> {
        let mut registry = Registry::default();
        for line in fs::read_to_string(path)?.lines() {
            let [name, _, table] = line.split('\t').collect::<Vec<_>>()[..] else {
                return Err(format!("{path}: {line}").into());
            };
            registry.add(name.to_string(), fs::read_to_string(table)?)?;
        }
        Ok(registry)
    }

    fn add(&mut self, name: String, text: String) -> Fallible<()> {
        let mut ends = 0;
        let mut lines = text.split('\n').flat_map(|line| line.split('\r')).filter_map(|line| {
            let start = ends;
            ends += line.len() + 1;
            (!line.is_empty()).then_some((start, line.as_bytes()))
        });
        let header: Vec<&[u8]> = cells_of(lines.next().ok_or("a table without a header")?.1).collect();
        let ids = [&b"print_identifier"[..], b"online_identifier"].map(|id| header.iter().position(|it| *it == id));
        let with_ids = ids.iter().flatten().max().map_or(0, |last| last + 1);
        let mut rows = Vec::new();
        for (start, line) in lines {
            for (column, cell) in cells_of(line).take(with_ids).enumerate() {
                if ids.contains(&Some(column)) {
                    self.index(cell, rows.len() as u32);
                }
            }
            rows.push((u32::try_from(start)?, u32::try_from(start + line.len())?));
        }
        let columns = columns_of(&header);
        self.targets.push(Target { name, text, rows, columns });
        Ok(())
    }

    /// Adds a row of the target that is read to the places of its number.
    fn index(&mut self, cell: &[u8], row: u32) {
        let Some(number) = Number::new(cell) else { return };
        let at = self.places.len() as u32;
        self.places.push(Place { target: self.targets.len() as u32, row, next: None });
        let (_, last) = self.numbers.entry(number).or_insert((at, at));
        if *last != at {
            self.places[*last as usize].next = Some(at);
            *last = at;
        }
    }

    /// Returns target and row of all places of the request's numbers, in order.
    fn rows_of(&self, request: &Request) -> Vec<(u32, u32)> {
        let mut rows = Vec::new();
        for number in request.numbers() {
            let mut next = self.numbers.get(&number).map(|(first, _)| *first);
            while let Some(at) = next {
                let place = &self.places[at as usize];
                rows.push((place.target, place.row));
                next = place.next;
            }
        }
        rows.sort_unstable();
        rows.dedup();
        rows
    }

    /// Appends a line for each target of which a row gives a link.
    fn write_menu(&self, request: &Request, out: &mut Vec<u8>) {
        let mut done = None;
        for (target, row) in self.rows_of(request) {
            if done == Some(target) {
                continue;
            }
            let source = &self.targets[target as usize];
            let start = out.len();
            out.extend_from_slice(source.name.as_bytes());
            out.push(b'\t');
            if (Scope { cells: source.cells(row), request }).write_link(out) {
                out.push(b'\n');
                done = Some(target);
            } else {
                out.truncate(start);
            }
        }
    }
}

fn columns_of(header: &[&[u8]]) -> Vec<Option<usize>> {
    let mut columns = Vec::new();
    for (column, text) in header.iter().enumerate() {
        if let Some(place) = place_of(text).filter(|_| !header[..column].contains(text)) {
            columns.resize(column, None);
            columns.push(Some(place));
        }
    }
    columns
}

// ---- requests

/// The first value of each name in a query.
#[derive(Default)]
struct Request<'a> {
    values: [Option<Cow<'a, str>>; NAMES.len()],
}

impl<'a> Request<'a> {
    fn read(query: &'a [u8]) -> Result<Request<'a>, &'static str> {
        let mut request = Request::default();
        for pair in query.split(|byte| *byte == b'&').filter(|pair| !pair.is_empty()) {
            let end = pair.iter().position(|byte| *byte == b'=').unwrap_or(pair.len());
            let value = &pair[pair.len().min(end + 1)..];
            let key = decoded(&pair[..end]);
            if let Some(place) = place_of(key.as_bytes()) {
                request.values[place].get_or_insert_with(|| decoded(value));
            } else if matches!(&*key, "ctx_ver" | "url_ver") && decoded(value) != "Z39.88-2004" {
                return Err("query: wrong version\n");
            }
        }
        Ok(request)
    }

    fn numbers(&self) -> impl Iterator<Item = Number> + '_ {
        [Issn, Eissn, Isbn].into_iter().filter_map(|key| Number::new(self.values[key as usize].as_deref()?.as_bytes()))
    }
}

/// Decodes a key or a value of a query as HTML forms are.
fn decoded(raw: &[u8]) -> Cow<'_, str> {
    if !raw.iter().any(|byte| matches!(byte, b'+' | b'%')) {
        return String::from_utf8_lossy(raw);
    }
    let digit = |at: usize| raw.get(at).and_then(|byte| (*byte as char).to_digit(16));
    let mut bytes = Vec::with_capacity(raw.len());
    let mut at = 0;
    while at < raw.len() {
        match (raw[at], digit(at + 1), digit(at + 2)) {
            (b'%', Some(high), Some(low)) => {
                bytes.push((high << 4 | low) as u8);
                at += 2;
            }
            (b'+', ..) => bytes.push(b' '),
            (byte, ..) => bytes.push(byte),
        }
        at += 1;
    }
    let text = String::from_utf8(bytes);
    Cow::Owned(text.unwrap_or_else(|error| String::from_utf8_lossy(error.as_bytes()).into_owned()))
}

// ---- rules

const HOST: &[u8] = b"https://press.example.org/";
const DIGITS: &[u8; 16] = b"0123456789ABCDEF";

/// The values of a row, and for what it leaves empty those of a request.
struct Scope<'a> {
    cells: [&'a [u8]; NAMES.len()],
    request: &'a Request<'a>,
}

impl Scope<'_> {
    fn text(&self, name: Name) -> Option<&[u8]> {
        match self.cells[name as usize] {
            [] => self.request.values[name as usize].as_deref().map(str::as_bytes),
            cell => Some(cell),
        }
    }

    /// Returns the digits with which a text begins as a number, if there are one to nine.
    fn number(&self, name: Name) -> Option<u32> {
        let text = self.text(name)?;
        let count = text.iter().take_while(|byte| byte.is_ascii_digit()).count();
        let value = |digits: &[u8]| digits.iter().fold(0, |value, digit| 10 * value + u32::from(digit - b'0'));
        (1..=9).contains(&count).then(|| value(&text[..count]))
    }

    fn is_covered(&self) -> bool {
        let Some(date) = self.number(Date) else { return false };
        self.number(FirstDate).is_none_or(|first| first <= date)
            && self.number(LastDate).is_none_or(|last| date <= last)
    }

    /// Appends the link of the first rule that holds. All links begin with a host, so all are web links.
    fn write_link(&self, out: &mut Vec<u8>) -> bool {
        let is_covered = self.is_covered();
        if is_covered && self.text(Genre) == Some(b"article") && self.text(Page).is_some_and(|page| !page.is_empty()) {
            for (before, name) in [(HOST, TitleId), (b"/", Volume), (b"/", Issue), (b"/", Page)] {
                out.extend_from_slice(before);
                self.write_value(name, out);
            }
            let mut separator = b'?';
            for (key, name) in [(b"rft.atitle=", Article), (b"rft.aulast=", Author)] {
                if self.text(name).is_some() {
                    out.push(separator);
                    out.extend_from_slice(key);
                    self.write_value(name, out);
                    separator = b'&';
                }
            }
        } else if is_covered || self.text(Access) == Some(b"F") {
            out.extend_from_slice(HOST);
            out.extend_from_slice(if is_covered { b"" } else { b"free/" });
            self.write_value(TitleId, out);
        } else {
            return false;
        }
        true
    }

    /// Appends a value, encoded as RFC 6570 says.
    fn write_value(&self, name: Name, out: &mut Vec<u8>) {
        let is_kept = |byte: &u8| byte.is_ascii_alphanumeric() || matches!(byte, b'-' | b'.' | b'_' | b'~');
        let mut rest = self.text(name).unwrap_or_default();
        loop {
            let plain = rest.iter().position(|byte| !is_kept(byte)).unwrap_or(rest.len());
            out.extend_from_slice(&rest[..plain]);
            let Some(byte) = rest.get(plain) else { return };
            out.extend([b'%', DIGITS[usize::from(byte >> 4)], DIGITS[usize::from(byte & 15)]]);
            rest = &rest[plain + 1..];
        }
    }
}

// ---- the service

/// Returns a head, with the empty line that ends it.
fn read_head<'a>(stream: &mut TcpStream, bytes: &'a mut [u8]) -> io::Result<&'a [u8]> {
    let mut length = 0;
    while !bytes[..length].ends_with(b"\r\n\r\n") {
        match stream.read(&mut bytes[length..])? {
            0 => return Err(io::ErrorKind::UnexpectedEof.into()),
            count => length += count,
        }
    }
    Ok(&bytes[..length])
}

/// Returns the query of a head that requests the menu.
fn query_of(head: &[u8]) -> Option<&[u8]> {
    let line = head.split(|byte| *byte == b'\r').next()?;
    let path = line.strip_prefix(b"GET ")?.strip_suffix(b" HTTP/1.1")?;
    path.strip_prefix(b"/openurl.txt?")
}

fn answer(registry: &Registry, stream: &mut TcpStream, head: &mut [u8], reply: &mut Vec<u8>) -> io::Result<()> {
    let wait = Some(Duration::from_secs(2));
    stream.set_read_timeout(wait)?;
    stream.set_write_timeout(wait)?;
    let head = read_head(stream, head)?;
    reply.clear();
    let status = match query_of(head).map(Request::read) {
        Some(Ok(request)) => {
            registry.write_menu(&request, reply);
            "200 OK"
        }
        Some(Err(fault)) => {
            reply.extend_from_slice(fault.as_bytes());
            "400 Bad Request"
        }
        None => "404 Not Found",
    };
    let kind = "Content-Type: text/plain; charset=utf-8";
    let length = reply.len();
    let head = format!("HTTP/1.1 {status}\r\n{kind}\r\nContent-Length: {length}\r\nConnection: close\r\n\r\n");
    reply.splice(..0, head.bytes());
    stream.write_all(reply)
}

fn serve(registry: &Registry, port: u16, count: usize) -> Fallible<()> {
    let listener = TcpListener::bind(("127.0.0.1", port))?;
    println!("listening {}", listener.local_addr()?);
    let (mut head, mut reply) = ([0; 16_384], Vec::new());
    for _ in 0..count {
        // A connection that fails does not end the service.
        let _ = listener.accept().and_then(|(mut stream, _)| answer(registry, &mut stream, &mut head, &mut reply));
    }
    Ok(())
}

fn main() -> Fallible<()> {
    let words: Vec<String> = env::args().collect();
    match &words.iter().map(|word| &word[..]).collect::<Vec<_>>()[1..] {
        ["resolve", registry, query] => {
            let mut menu = Vec::new();
            Registry::read(registry)?.write_menu(&Request::read(query.as_bytes())?, &mut menu);
            io::stdout().write_all(&menu)?;
            process::exit(menu.is_empty().into());
        }
        ["serve", registry, port, count] => serve(&Registry::read(registry)?, port.parse()?, count.parse()?),
        _ => Err("usage: peer resolve REGISTRY QUERY | peer serve REGISTRY PORT COUNT".into()),
    }
}
