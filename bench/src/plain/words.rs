//! The words of a line, from left to right, and their values.

use super::line::{ClassId, Fault, Prefix};
use std::net::{IpAddr, Ipv4Addr};

type Read<T> = Result<T, Fault>;

/// Why a word is no value of its kind.
enum Bad {
    Form,
    Range,
}

pub struct Words<'a> {
    rest: &'a str,
    /// Whether a word after the rest is not UTF-8.
    is_cut: bool,
    pub taken: usize,
}

#[inline(always)]
fn is_blank(byte: u8) -> bool {
    matches!(byte, b' ' | b'\t' | b'\r')
}

impl<'a> Words<'a> {
    pub fn of(line: &'a [u8]) -> Words<'a> {
        match str::from_utf8(line) {
            Ok(rest) => Words {
                rest,
                is_cut: false,
                taken: 0,
            },
            Err(error) => Words::cut(line, error.valid_up_to()),
        }
    }

    /// The words before the one that has this byte. A comment has none, as it may hold any bytes.
    #[cold]
    #[inline(never)]
    fn cut(line: &'a [u8], bad: usize) -> Words<'a> {
        let before = line[..bad].iter().rposition(|byte| is_blank(*byte));
        let start = before.map_or(0, |blank| blank + 1);
        let rest = str::from_utf8(&line[..start]).unwrap_or("");
        let is_comment = line[start] == b'#' && rest.bytes().all(is_blank);
        Words {
            rest,
            is_cut: !is_comment,
            taken: 0,
        }
    }

    #[inline(always)]
    pub fn next(&mut self) -> Read<Option<&'a str>> {
        self.taken += 1;
        let bytes = self.rest.as_bytes();
        let mut start = 0;
        while start < bytes.len() && is_blank(bytes[start]) {
            start += 1;
        }
        let mut end = start;
        while end < bytes.len() && !is_blank(bytes[end]) {
            end += 1;
        }
        if start == end {
            return self.ends();
        }
        // SAFETY: both are at the ends of the text, or at blanks.
        let (word, rest) = unsafe { (self.rest.get_unchecked(start..end), self.rest.get_unchecked(end..)) };
        self.rest = rest;
        Ok(Some(word))
    }

    #[cold]
    #[inline(never)]
    fn ends(&self) -> Read<Option<&'a str>> {
        if self.is_cut {
            Err(Fault::BadUtf8(self.taken))
        } else {
            Ok(None)
        }
    }

    pub fn needed(&mut self) -> Read<&'a str> {
        self.next()?.ok_or(Fault::Missing(self.taken))
    }

    /// The word behind an option, which may be given once.
    pub fn option<T>(&mut self, given: &Option<T>) -> Read<&'a str> {
        self.once(given.is_some())?;
        self.needed()
    }

    pub fn once(&self, given: bool) -> Read<()> {
        if given {
            return Err(Fault::Twice(self.taken));
        }
        Ok(())
    }

    pub fn ended<T>(&mut self, line: T) -> Read<T> {
        match self.next()? {
            None => Ok(line),
            Some(_) => Err(self.unknown()),
        }
    }

    pub fn unknown(&self) -> Fault {
        Fault::UnknownWord(self.taken)
    }

    pub fn missing(&self) -> Fault {
        Fault::Missing(self.taken)
    }

    pub fn bad(&self) -> Fault {
        Fault::BadNumber(self.taken)
    }

    fn out_of_range(&self) -> Fault {
        Fault::OutOfRange(self.taken)
    }

    fn fault(&self, bad: &Bad) -> Fault {
        match bad {
            Bad::Form => self.bad(),
            Bad::Range => self.out_of_range(),
        }
    }

    fn within<T: TryFrom<u64>>(&self, number: u64, low: u64, high: u64) -> Read<T> {
        if number < low || number > high {
            return Err(self.out_of_range());
        }
        T::try_from(number).map_err(|_| self.out_of_range())
    }

    pub fn number<T: TryFrom<u64>>(&self, word: &str, low: u64, high: u64) -> Read<T> {
        if !is_decimal(word) {
            return Err(self.bad());
        }
        let number = word.parse().map_err(|_| self.out_of_range())?;
        self.within(number, low, high)
    }

    /// A number of any size; one above the greatest of 64 bits is that.
    pub fn any_number(&self, word: &str) -> Read<u64> {
        if !is_decimal(word) {
            return Err(self.bad());
        }
        Ok(word.parse().unwrap_or(u64::MAX))
    }

    pub fn handle(&self, word: &str) -> Read<u16> {
        let (major, minor) = parts(word, b':').unwrap_or((word, ""));
        if !is_hexadecimal(major) || !minor.is_empty() && !is_hexadecimal(minor) {
            return Err(self.bad());
        }
        if !matches!(minor, "" | "0") {
            return Err(self.out_of_range());
        }
        self.part(major, 0xfffe)
    }

    pub fn class(&self, word: &str) -> Read<ClassId> {
        let (major, minor) = parts(word, b':').ok_or_else(|| self.bad())?;
        if !is_hexadecimal(major) || !is_hexadecimal(minor) {
            return Err(self.bad());
        }
        Ok(ClassId {
            major: self.part(major, 0xfffe)?,
            minor: self.part(minor, 0xffff)?,
        })
    }

    /// A major or a minor: one to four hexadecimal digits, and not 0.
    fn part(&self, digits: &str, high: u64) -> Read<u16> {
        if digits.len() > 4 {
            return Err(self.out_of_range());
        }
        let number = u64::from_str_radix(digits, 16).map_err(|_| self.bad())?;
        self.within(number, 1, high)
    }

    /// A number with a unit, rounded down.
    pub fn united<T: TryFrom<u64>>(&self, word: &str, units: &[(&str, u64)], low: u64, high: u64) -> Read<T> {
        let end = word
            .bytes()
            .position(|byte| !byte.is_ascii_digit() && byte != b'.')
            .unwrap_or(word.len());
        let (number, suffix) = word.split_at(end);
        let (whole, places) = match number.split_once('.') {
            Some((_, "")) => return Err(self.bad()),
            Some(parts) => parts,
            None => (number, ""),
        };
        if !is_decimal(whole) || places.len() > 9 || !places.is_empty() && !is_decimal(places) {
            return Err(self.bad());
        }
        let (_, factor) = units
            .iter()
            .find(|(unit, _)| unit.eq_ignore_ascii_case(suffix))
            .ok_or_else(|| self.bad())?;
        let whole: u64 = whole.parse().map_err(|_| self.out_of_range())?;
        let mut value = u128::from(whole) * u128::from(*factor);
        if !places.is_empty() {
            let behind: u64 = places.parse().map_err(|_| self.bad())?;
            value += u128::from(behind) * u128::from(*factor) / 10_u128.pow(places.len() as u32);
        }
        let value = u64::try_from(value).map_err(|_| self.out_of_range())?;
        self.within(value, low, high)
    }

    pub fn address(&self, word: &str, wanted: Option<IpAddr>) -> Read<IpAddr> {
        let address = address_of(word).map_err(|bad| self.fault(&bad))?;
        self.of_family(address, wanted)
    }

    fn of_family(&self, address: IpAddr, wanted: Option<IpAddr>) -> Read<IpAddr> {
        if wanted.is_none_or(|other| address.is_ipv4() == other.is_ipv4()) {
            Ok(address)
        } else {
            Err(self.out_of_range())
        }
    }

    /// The form of both parts is looked at before the range of either.
    pub fn prefix(&self, word: &str, wanted: Option<IpAddr>) -> Read<Prefix> {
        let Some((address, len)) = parts(word, b'/') else {
            let address = self.address(word, wanted)?;
            let len = if address.is_ipv4() { 32 } else { 128 };
            return Ok(Prefix { address, len });
        };
        let address = match address_of(address) {
            Err(Bad::Form) => return Err(self.bad()),
            other => other,
        };
        if !is_decimal(len) {
            return Err(self.bad());
        }
        let address = self.of_family(address.map_err(|bad| self.fault(&bad))?, wanted)?;
        let bits = if address.is_ipv4() { 32 } else { 128 };
        let len = self.number(len, 0, bits)?;
        Ok(Prefix { address, len })
    }

    pub fn ip_proto(&self, word: &str) -> Read<u8> {
        match word {
            "tcp" => Ok(6),
            "udp" => Ok(17),
            "sctp" => Ok(132),
            "icmp" => Ok(1),
            "icmpv6" => Ok(58),
            _ if !is_hexadecimal(word) => Err(self.bad()),
            _ => u8::from_str_radix(word, 16).map_err(|_| self.out_of_range()),
        }
    }

    pub fn named(&mut self) -> Read<()> {
        if self.needed()?.len() > 15 {
            return Err(self.out_of_range());
        }
        Ok(())
    }
}

/// What is before this byte and after it.
fn parts(word: &str, at: u8) -> Option<(&str, &str)> {
    let place = word.bytes().position(|byte| byte == at)?;
    Some((&word[..place], &word[place + 1..]))
}

fn is_decimal(word: &str) -> bool {
    !word.is_empty() && word.bytes().all(|byte| byte.is_ascii_digit())
}

fn is_hexadecimal(word: &str) -> bool {
    !word.is_empty() && word.bytes().all(|byte| byte.is_ascii_hexdigit())
}

fn address_of(word: &str) -> Result<IpAddr, Bad> {
    if word.bytes().any(|byte| byte == b':') {
        if word.contains('.') {
            return Err(Bad::Form);
        }
        return word.parse().map(IpAddr::V6).map_err(|_| Bad::Form);
    }
    match word.parse() {
        Ok(address) => Ok(IpAddr::V4(address)),
        Err(_) => padded_ipv4(word),
    }
}

/// Four numbers that may start with zeros; a number above 255 is out of range, however long the numbers are.
#[cold]
fn padded_ipv4(word: &str) -> Result<IpAddr, Bad> {
    let mut octets = [0; 4];
    let (mut is_long, mut is_greater) = (false, false);
    let mut parts = word.split('.');
    for octet in &mut octets {
        let part = parts.next().filter(|part| is_decimal(part)).ok_or(Bad::Form)?;
        is_long |= part.len() > 3;
        match part.parse() {
            Ok(number) => *octet = number,
            Err(_) => is_greater = true,
        }
    }
    if parts.next().is_some() {
        return Err(Bad::Form);
    }
    match (is_greater, is_long) {
        (true, _) => Err(Bad::Range),
        (false, true) => Err(Bad::Form),
        (false, false) => Ok(IpAddr::V4(Ipv4Addr::from(octets))),
    }
}
