//! A press of the commands that bench/paths sends, as a good programmer writes it in a few days, with no proof: it scans, skips text, records
//! and runs macros, decodes, widens by a table, paints sixty-four dots at a time, fills, turns a landscape page at its close by blocks of
//! eight by eight dots, and counts once a sheet. It reads standard input and prints the listing of `press print --list`. Every other command
//! is passed over. A page is kept in the frame, its memory from one page to the next, and only the lines that were marked are cleared.

use std::io::{self, Read, Write};

const MOST_BYTES: usize = 10_240 / 8 + 64;
const ESCAPE: u8 = 27;
/// Code, width and length, and the offsets of the logical page in portrait and landscape, in dots of 300.
const SIZES: [[i64; 5]; 6] = [
    [2, 2550, 3300, 75, 60],
    [3, 2550, 4200, 75, 60],
    [26, 2480, 3507, 71, 59],
    [1, 2175, 3150, 75, 60],
    [27, 3507, 4960, 71, 59],
    [6, 3300, 5100, 75, 60],
];

/// Lines of dots, sixty-four in a word, the leftmost in its highest bit.
struct Page {
    stride: usize,
    words: Vec<u64>,
    marked: Option<(usize, usize)>,
}

impl Page {
    fn new() -> Page {
        Page { stride: 0, words: Vec::new(), marked: None }
    }

    fn fit(&mut self, width: usize, height: usize) {
        let stride = width.div_ceil(64) + 1;
        if stride != self.stride || self.words.len() < stride * height {
            self.stride = stride;
            self.words = vec![0; stride * height];
        }
    }

    fn line(&mut self, line: usize) -> &mut [u64] {
        &mut self.words[line * self.stride..(line + 1) * self.stride]
    }

    fn mark(&mut self, first: usize, last: usize) {
        self.marked = Some(self.marked.map_or((first, last), |(from, to)| (from.min(first), to.max(last))));
    }

    fn clear(&mut self) {
        if let Some((first, last)) = self.marked.take() {
            self.words[first * self.stride..(last + 1) * self.stride].fill(0);
        }
    }

    fn black(&self, first: usize, last: usize) -> u64 {
        self.words[first * self.stride..(last + 1) * self.stride].iter().map(|word| u64::from(word.count_ones())).sum()
    }
}

/// A pattern: words of each of its lines, which are repeated over the page.
#[derive(Clone)]
struct Pattern {
    lines: Vec<u64>,
}

impl Pattern {
    /// Each line has sixteen dots, or eight twice.
    fn of(tile: &[u16]) -> Pattern {
        Pattern { lines: tile.iter().map(|line| u64::from(*line) * 0x0001_0001_0001_0001).collect() }
    }

    fn named(kind: i64, id: i64) -> Option<Pattern> {
        const SHADES: [(i64, [u8; 8]); 8] = [
            (2, [0x80, 0, 0, 0, 0, 0, 0, 0]),
            (10, [0x88, 0, 0, 0, 0x88, 0, 0, 0]),
            (20, [0x88, 0, 0x22, 0, 0x88, 0, 0x22, 0]),
            (35, [0xAA, 0, 0xAA, 0, 0xAA, 0, 0xAA, 0]),
            (55, [0xAA, 0x55, 0xAA, 0x55, 0xAA, 0x55, 0xAA, 0x55]),
            (80, [0xFF, 0x55, 0xFF, 0x55, 0xFF, 0x55, 0xFF, 0x55]),
            (99, [0x77, 0xFF, 0xDD, 0xFF, 0x77, 0xFF, 0xDD, 0xFF]),
            (100, [0xFF; 8]),
        ];
        match kind {
            0 => Some(Pattern::of(&[0xFFFF])),
            1 => Some(Pattern::of(&[0])),
            2 if (1..=100).contains(&id) => {
                let shade = SHADES.iter().find(|(most, _)| id <= *most)?;
                Some(Pattern::of(&shade.1.map(|line| u16::from(line) * 0x0101)))
            }
            3 if (1..=6).contains(&id) => Some(Pattern::of(&std::array::from_fn::<u16, 16, _>(|line| hatch(id, line)))),
            _ => None,
        }
    }

    fn word(&self, line: usize) -> u64 {
        self.lines[line % self.lines.len()]
    }
}

fn hatch(id: i64, line: usize) -> u16 {
    (0..16).filter(|column| match id {
        1 => line == 0,
        2 => *column == 0,
        3 => column + line == 15,
        4 => *column == line,
        5 => *column == 0 || line == 0,
        _ => column + line == 15 || *column == line,
    }).fold(0, |dots, column| dots | 0x8000 >> column)
}

#[derive(Clone)]
struct State {
    x: i64,
    y: i64,
    top: i64,
    left_margin: i64,
    line: i64,
    unit: i64,
    source_width: Option<i64>,
    source_height: Option<i64>,
    fill_width: i64,
    fill_height: i64,
    pattern_id: i64,
    copies: i64,
    macro_id: i64,
    resolution: i64,
    method: i64,
    pattern_kind: i64,
    current_id: i64,
    source_opaque: bool,
    pattern_opaque: bool,
}

impl State {
    fn new() -> State {
        State {
            x: 0,
            y: 0,
            top: 3600,
            left_margin: 0,
            line: 1200,
            unit: 24,
            source_width: None,
            source_height: None,
            fill_width: 0,
            fill_height: 0,
            pattern_id: 0,
            copies: 1,
            macro_id: 0,
            resolution: 75,
            method: 0,
            pattern_kind: 0,
            current_id: 0,
            source_opaque: false,
            pattern_opaque: false,
        }
    }
}

/// Raster graphics that is on.
struct Raster {
    left: i64,
    rows: i64,
}

struct Press<W: Write> {
    out: W,
    dpi: i64,
    size: usize,
    landscape: bool,
    orientation: i64,
    width: i64,
    length: i64,
    skip: i64,
    state: State,
    pattern: Pattern,
    raster: Option<Raster>,
    seed: Vec<u8>,
    row: Vec<u8>,
    dots: Vec<u64>,
    page: Page,
    turned: Page,
    marked: bool,
    sheets: u64,
    stack: Vec<(i64, i64)>,
    macros: Vec<Option<std::rc::Rc<[u8]>>>,
    recording: Option<(i64, usize)>,
    overlay: Option<i64>,
    in_overlay: bool,
    running: usize,
    wide: Vec<[u64; 256]>,
}

/// Paints dots of a row from a column on, and no further than so many.
fn paint(row: &mut [u64], dots: &[u64], column: usize, count: usize, pattern: u64, source_opaque: bool, pattern_opaque: bool) {
    if count == 0 {
        return;
    }
    let (first, shift, end) = (column / 64, column % 64, column + count);
    let words = end.div_ceil(64) - first;
    let row = &mut row[first..first + words];
    let shifted = |at: usize| {
        let here = dots.get(at).copied().unwrap_or(0);
        let before = if at == 0 || shift == 0 { 0 } else { dots[at - 1] << (64 - shift) };
        before | here >> shift
    };
    let mask = |at: usize| {
        let from = if at == 0 { u64::MAX >> shift } else { u64::MAX };
        let past = (64 * (first + at + 1)).saturating_sub(end);
        if past == 0 { from } else { from & u64::MAX << past }
    };
    if pattern == u64::MAX && !source_opaque {
        row[0] |= shifted(0) & mask(0);
        if words > 1 {
            let last = words - 1;
            if shift == 0 {
                for (word, here) in row[1..last].iter_mut().zip(&dots[1..last]) {
                    *word |= here;
                }
            } else {
                for (word, pair) in row[1..last].iter_mut().zip(dots.windows(2)) {
                    *word |= pair[0] << (64 - shift) | pair[1] >> shift;
                }
            }
            row[last] |= shifted(last) & mask(last);
        }
        return;
    }
    for (at, word) in row.iter_mut().enumerate() {
        let (dot, mask) = (shifted(at), mask(at));
        let white = (if pattern_opaque { dot & !pattern } else { 0 }) | (if source_opaque { !dot } else { 0 });
        *word = *word & !(mask & white) | mask & dot & pattern;
    }
}

/// Paints black dots.
fn fill_row(row: &mut [u64], column: usize, count: usize, pattern: u64, opaque: bool) {
    let (first, last) = (column / 64, (column + count - 1) / 64);
    let (left, right) = (u64::MAX >> (column % 64), u64::MAX << (63 - (column + count - 1) % 64));
    let put = |word: &mut u64, mask: u64| {
        *word = if opaque { *word & !(mask & !pattern) | mask & pattern } else { *word | mask & pattern };
    };
    if first == last {
        return put(&mut row[first], left & right);
    }
    put(&mut row[first], left);
    for word in &mut row[first + 1..last] {
        put(word, u64::MAX);
    }
    put(&mut row[last], right);
}

fn transposed(mut block: u64) -> u64 {
    for (shift, mask) in [(7, 0x00AA_00AA_00AA_00AA), (14, 0x0000_CCCC_0000_CCCC), (28, 0x0000_0000_F0F0_F0F0)] {
        let exchanged = (block ^ block >> shift) & mask;
        block ^= exchanged ^ exchanged << shift;
    }
    block
}

/// The row that data stands for by a method, after the seed row.
fn decode(method: i64, data: &[u8], seed: &[u8], row: &mut [u8]) {
    if method == 3 {
        row.copy_from_slice(seed);
        return replace(data, row);
    }
    row.fill(0);
    if method == 0 {
        let count = data.len().min(row.len());
        row[..count].copy_from_slice(&data[..count]);
        return;
    }
    let (mut at, mut to) = (0, 0);
    while at < data.len() && to < row.len() {
        let code = usize::from(data[at]);
        at += 1;
        if method == 2 && code == 128 {
            continue;
        }
        if method == 2 && code < 128 {
            let count = (code + 1).min(row.len() - to).min(data.len() - at);
            row[to..to + count].copy_from_slice(&data[at..at + count]);
            to += count;
            at += code + 1;
        } else {
            let Some(byte) = data.get(at) else { return };
            let count = (if method == 1 { code + 1 } else { 257 - code }).min(row.len() - to);
            row[to..to + count].fill(*byte);
            to += count;
            at += 1;
        }
    }
}

fn replace(data: &[u8], row: &mut [u8]) {
    let (mut at, mut to) = (0, 0);
    while at < data.len() {
        let (count, mut over) = (usize::from(data[at] >> 5) + 1, usize::from(data[at] & 31));
        at += 1;
        if over == 31 {
            loop {
                let Some(more) = data.get(at) else { return };
                over += usize::from(*more);
                at += 1;
                if *more < 255 {
                    break;
                }
            }
        }
        to += over;
        for byte in data[at..].iter().take(count) {
            if let Some(place) = row.get_mut(to) {
                *place = *byte;
            }
            to += 1;
        }
        at = (at + count).min(data.len());
    }
}

impl<W: Write> Press<W> {
    fn new(out: W) -> Press<W> {
        let wide = (0..=8).map(|size| std::array::from_fn(|byte| (0..8 * size)
            .filter(|each| byte >> (7 - each / size) & 1 == 1)
            .fold(0, |word, each| word | 1 << (63 - each)))).collect();
        let mut press = Press {
            out,
            dpi: 300,
            size: 0,
            landscape: false,
            orientation: 0,
            width: 0,
            length: 0,
            skip: 1,
            state: State::new(),
            pattern: Pattern::of(&[0xFFFF]),
            raster: None,
            seed: vec![0; MOST_BYTES],
            row: vec![0; MOST_BYTES],
            dots: Vec::new(),
            page: Page::new(),
            turned: Page::new(),
            marked: false,
            sheets: 0,
            stack: Vec::new(),
            macros: vec![None; 32_768],
            recording: None,
            overlay: None,
            in_overlay: false,
            running: 0,
            wide,
        };
        press.reset();
        press
    }

    fn dot(&self) -> i64 {
        7200 / self.dpi
    }

    fn physical(&self) -> (i64, i64) {
        (SIZES[self.size][1] * (self.dpi / 300), SIZES[self.size][2] * (self.dpi / 300))
    }

    fn frame(&self) -> (i64, i64) {
        let (width, height) = self.physical();
        if self.landscape { (height, width) } else { (width, height) }
    }

    fn offset(&self) -> i64 {
        SIZES[self.size][if self.landscape { 4 } else { 3 }] * (self.dpi / 300)
    }

    fn place(&mut self, x: i64, y: i64) {
        self.raster = None;
        self.state.x = x.clamp(0, self.width);
        self.state.y = y.clamp(-self.state.top, self.length - self.state.top);
    }

    fn home(&mut self) {
        self.place(self.state.left_margin, 3 * self.state.line / 4);
    }

    fn measure(&mut self) {
        let (width, height) = self.frame();
        self.width = (width - 2 * self.offset()) * self.dot();
        self.length = height * self.dot();
        self.state.left_margin = 0;
        self.state.top = 3600;
        self.page.fit(width as usize, height as usize);
    }

    fn select(&mut self, kind: i64, id: i64) -> bool {
        let Some(pattern) = Pattern::named(kind, id) else { return false };
        self.pattern = pattern;
        true
    }

    fn reset(&mut self) {
        if self.marked {
            self.close();
        }
        self.state = State::new();
        (self.orientation, self.landscape, self.size, self.skip) = (0, false, 0, 1);
        self.overlay = None;
        self.recording = None;
        self.stack.clear();
        self.measure();
        self.select(0, 0);
        self.home();
    }

    fn run_overlay(&mut self) {
        let Some(body) = self.overlay.and_then(|id| self.macros[id as usize].clone()) else { return };
        let kept = std::mem::replace(&mut self.state, State::new());
        self.state.copies = kept.copies;
        self.select(0, 0);
        self.in_overlay = true;
        self.home();
        self.run(&body);
        self.in_overlay = false;
        self.state = kept;
        self.select(self.state.pattern_kind, self.state.current_id);
        self.raster = None;
    }

    fn close(&mut self) {
        self.raster = None;
        self.run_overlay();
        let mut black = 0;
        if let Some((first, last)) = self.page.marked {
            black = if self.landscape { self.turn(first, last) } else { self.page.black(first, last) };
            self.page.clear();
        }
        let (width, height) = self.physical();
        for _ in 0..self.state.copies {
            self.sheets += 1;
            writeln!(self.out, "sheet {} front {width}x{height} black {black}", self.sheets).expect("standard output");
        }
        self.marked = false;
    }

    /// Dot (a, b) of the frame becomes (b, height - 1 - a) of the page. How many are black.
    fn turn(&mut self, first: usize, last: usize) -> u64 {
        let (width, height) = (self.frame().0 as usize, self.frame().1 as usize);
        self.turned.fit(height, width);
        for top in (first & !7..=last).step_by(8) {
            for at in 0..width.div_ceil(8) {
                let (word, shift) = (at / 8, 56 - 8 * (at % 8));
                let block = (top..top + 8).fold(0, |block, line| block << 8 | if line < height { self.page.words[line * self.page.stride + word] >> shift & 0xFF } else { 0 });
                if block == 0 {
                    continue;
                }
                for (each, byte) in transposed(block).to_be_bytes().into_iter().enumerate() {
                    if 8 * at + each < width {
                        self.turned.line(width - 1 - (8 * at + each))[top / 64] |= u64::from(byte) << (56 - top % 64);
                    }
                }
            }
        }
        self.turned.mark(0, width - 1);
        let black = self.turned.black(0, width - 1);
        self.turned.clear();
        black
    }

    fn transfer(&mut self, data: &[u8]) {
        let left = match &self.raster {
            Some(raster) => raster.left,
            None => self.start(0),
        };
        let rows = self.raster.as_ref().map_or(0, |raster| raster.rows);
        if self.state.source_height.is_some_and(|height| rows >= height) {
            return;
        }
        let (frame_width, frame_height) = self.frame();
        let size = (self.dpi / self.state.resolution) as usize;
        let width = self.state.source_width.unwrap_or((self.width - left) * self.state.resolution / 7200) as usize;
        let bytes = width.div_ceil(8);
        if bytes > self.seed.len() {
            self.seed.resize(bytes, 0);
            self.row.resize(bytes, 0);
        }
        decode(self.state.method, data, &self.seed[..bytes], &mut self.row[..bytes]);
        self.seed[..bytes].copy_from_slice(&self.row[..bytes]);
        let column = self.offset() + left / self.dot();
        let line = (self.state.y + self.state.top) / self.dot();
        if column < frame_width && line < frame_height {
            let count = (width * size).min((frame_width - column) as usize);
            self.widen(bytes, size);
            let last = (line as usize + size - 1).min(frame_height as usize - 1);
            for at in line as usize..=last {
                let pattern = self.pattern.word(at);
                paint(self.page.line(at), &self.dots, column as usize, count, pattern, self.state.source_opaque, self.state.pattern_opaque || self.state.pattern_kind == 1);
            }
            self.page.mark(line as usize, last);
        }
        self.marked = true;
        self.state.y = (self.state.y + 7200 / self.state.resolution).clamp(-self.state.top, self.length - self.state.top);
        if let Some(raster) = &mut self.raster {
            raster.rows += 1;
        }
    }

    /// The dots of the row, each so many times, in words.
    fn widen(&mut self, bytes: usize, size: usize) {
        self.dots.clear();
        let row = &self.row[..bytes];
        if size == 1 {
            let (words, rest) = row.as_chunks::<8>();
            self.dots.extend(words.iter().map(|word| u64::from_be_bytes(*word)));
            if !rest.is_empty() {
                let mut last = [0; 8];
                last[..rest.len()].copy_from_slice(rest);
                self.dots.push(u64::from_be_bytes(last));
            }
        } else {
            self.dots.resize((bytes * size).div_ceil(8), 0);
            for (at, byte) in row.iter().enumerate() {
                let (word, bits) = (self.wide[size][usize::from(*byte)], 8 * size * at);
                self.dots[bits / 64] |= word >> (bits % 64);
                if bits % 64 + 8 * size > 64 {
                    self.dots[bits / 64 + 1] |= word << (64 - bits % 64);
                }
            }
        }
        self.dots.push(0);
    }

    fn start(&mut self, left: i64) -> i64 {
        self.seed.fill(0);
        self.state.x = left;
        self.raster = Some(Raster { left, rows: 0 });
        left
    }

    fn fill(&mut self, given: i64) {
        let (kind, id) = if given == 5 { (self.state.pattern_kind, self.state.current_id) } else { (given, self.state.pattern_id) };
        if self.state.fill_width == 0 || self.state.fill_height == 0 || !self.select(kind, id) {
            return;
        }
        let (frame_width, frame_height) = self.frame();
        let dot = self.dot();
        let (column, line) = (self.offset() + self.state.x / dot, (self.state.y + self.state.top) / dot);
        let count = ((self.state.fill_width + dot - 1) / dot).min(frame_width - column);
        let end = (line + (self.state.fill_height + dot - 1) / dot).min(frame_height);
        if count > 0 && line < end {
            for at in line as usize..end as usize {
                let pattern = self.pattern.word(at);
                fill_row(self.page.line(at), column as usize, count as usize, pattern, self.state.pattern_opaque || kind == 1);
            }
            self.page.mark(line as usize, end as usize - 1);
        }
        self.marked = true;
        self.select(self.state.pattern_kind, self.state.current_id);
    }

    fn run_macro(&mut self, value: i64) {
        let id = self.state.macro_id;
        match value {
            4 => self.overlay = Some(id),
            5 => self.overlay = None,
            2 | 3 if self.running < if self.in_overlay { 1 } else { 2 } => {
                let Some(body) = self.macros[id as usize].clone() else { return };
                let kept = (value == 3).then(|| self.state.clone());
                self.running += 1;
                if kept.is_some() {
                    self.raster = None;
                }
                self.run(&body);
                self.running -= 1;
                if let Some(kept) = kept {
                    let (x, y) = (self.state.x, self.state.y);
                    self.state = kept;
                    self.select(self.state.pattern_kind, self.state.current_id);
                    self.place(x, y);
                }
            }
            _ => {}
        }
    }

    fn turn_page(&mut self, orientation: i64, size: usize) {
        if self.in_overlay {
            return;
        }
        if self.marked {
            self.close();
        }
        (self.orientation, self.landscape, self.size) = (orientation, orientation & 1 == 1, size);
        self.overlay = None;
        self.measure();
        self.home();
    }

    fn command(&mut self, group: u8, family: u8, letter: u8, number: Number, data: &[u8]) {
        let Number { value, tenths, signed } = number;
        let (x, y, unit) = (self.state.x, self.state.y, self.state.unit);
        let from = |here: i64, distance: i64| if signed { here + distance } else { distance };
        match (group, family, letter) {
            (b'*', b'b', b'W') => self.transfer(data),
            (b'*', b'p', b'X') => self.place(from(x, value * unit), y),
            (b'*', b'p', b'Y') => self.place(x, from(y, value * unit)),
            (b'&', b'a', b'H') => self.place(from(x, value * 10), y),
            (b'&', b'a', b'V') => self.place(x, from(y, value * 10)),
            (b'*', b'b', b'M') if (0..=3).contains(&value) => self.state.method = value,
            (b'*', b'b', b'Y') if value >= 1 => self.skip_rows(value),
            (b'*', b't', b'R') if self.raster.is_none() && value >= 75 && self.dpi % value == 0 => self.state.resolution = value,
            (b'*', b'r', b'S') if self.raster.is_none() && value >= 1 => self.state.source_width = Some(value),
            (b'*', b'r', b'T') if self.raster.is_none() && value >= 1 => self.state.source_height = Some(value),
            (b'*', b'r', b'A') if self.raster.is_none() && (0..=3).contains(&value) => {
                self.start(if value & 1 == 1 { x } else { 0 });
            }
            (b'*', b'r', b'B') => self.raster = None,
            (b'*', b'r', b'C') => {
                self.raster = None;
                self.state.method = 0;
            }
            (b'*', b'c', b'A') if value >= 0 => self.state.fill_width = value * unit + tenths * unit / 10,
            (b'*', b'c', b'B') if value >= 0 => self.state.fill_height = value * unit + tenths * unit / 10,
            (b'*', b'c', b'G') => self.state.pattern_id = value,
            (b'*', b'c', b'P') => self.fill(value),
            (b'*', b'v', b'N') if value == 0 || value == 1 => self.state.source_opaque = value == 1,
            (b'*', b'v', b'O') if value == 0 || value == 1 => self.state.pattern_opaque = value == 1,
            (b'*', b'v', b'T') => {
                if self.select(value, self.state.pattern_id) {
                    (self.state.pattern_kind, self.state.current_id) = (value, self.state.pattern_id);
                }
            }
            (b'&', b'l', b'O') if (0..=3).contains(&value) => {
                self.turn_page(value, self.size);
                if !self.in_overlay {
                    self.state.line = 1200;
                    self.home();
                }
            }
            (b'&', b'l', b'A') => {
                if let Some(size) = SIZES.iter().position(|size| size[0] == value) {
                    self.turn_page(self.orientation, size);
                }
            }
            (b'&', b'l', b'E') if (0..=self.length).contains(&(self.state.line * value)) => {
                self.state.top = self.state.line * value;
                self.home();
            }
            (b'&', b'l', b'L') if (value == 0 || value == 1) && value != self.skip => {
                self.skip = value;
                self.state.top = 3600;
                self.place(x, y);
            }
            (b'&', b'l', b'X') if value >= 1 => self.state.copies = value.min(999),
            (b'&', b'l', b'H') if self.marked && !self.in_overlay => {
                self.close();
                self.home();
                self.place(x, self.state.y);
            }
            (b'&', b'l', b'S') if (0..=2).contains(&value) && !self.in_overlay => {
                if self.marked {
                    self.close();
                }
                self.home();
            }
            (b'&', b'l', b'D') if value > 0 && 48 % value == 0 => self.state.line = 7200 / value,
            (b'&', b'u', b'D') if value >= 96 && 7200 % value == 0 => self.state.unit = 7200 / value,
            (b'&', b'f', b'S') if value == 0 && self.stack.len() < 20 => {
                self.stack.push((x, y));
                self.raster = None;
            }
            (b'&', b'f', b'S') if value == 1 => {
                if let Some((x, y)) = self.stack.pop() {
                    self.place(x, y);
                }
            }
            (b'&', b'f', b'Y') if (0..=32_767).contains(&value) => self.state.macro_id = value,
            _ => {}
        }
    }

    fn skip_rows(&mut self, rows: i64) {
        if let Some(raster) = &mut self.raster {
            raster.rows += rows;
            self.state.y = (self.state.y + rows * 7200 / self.state.resolution).clamp(-self.state.top, self.length - self.state.top);
            self.seed.fill(0);
        }
    }

    fn control(&mut self, byte: u8) {
        match byte {
            12 if !self.in_overlay => {
                let x = self.state.x;
                self.close();
                self.place(x, 3 * self.state.line / 4);
            }
            13 => self.place(self.state.left_margin, self.state.y),
            10 => self.place(self.state.x, self.state.y + self.state.line),
            _ => {}
        }
    }

    /// The bytes of lines of the job language, up to the one that enters the page language.
    fn job_lines(&mut self, bytes: &[u8]) -> usize {
        let mut at = 0;
        while bytes.get(at) == Some(&b'@') {
            let length = bytes[at..].iter().position(|byte| *byte == b'\n').map_or(bytes.len() - at, |end| end + 1);
            let line = &bytes[at..at + length];
            at += length;
            if line.starts_with(b"@PJL ENTER LANGUAGE") {
                return at;
            }
            if line.starts_with(b"@PJL SET RESOLUTION=600") {
                self.dpi = 600;
                self.measure();
                self.home();
            }
        }
        at
    }

    fn run(&mut self, bytes: &[u8]) {
        let mut at = 0;
        while at < bytes.len() {
            if bytes[at] != ESCAPE {
                if self.recording.is_none() && bytes[at] < 32 {
                    self.control(bytes[at]);
                }
                at += 1;
                at += bytes[at..].iter().position(|byte| (10..32).contains(byte)).unwrap_or(bytes.len() - at);
                continue;
            }
            match bytes.get(at + 1) {
                None => return,
                Some(b'E') => {
                    self.reset();
                    at += 2;
                }
                Some(b'%') if bytes[at..].starts_with(b"\x1b%-12345X") => {
                    self.reset();
                    at += 9;
                    at += self.job_lines(&bytes[at..]);
                }
                Some(33..=47) => at = self.escape(bytes, at),
                Some(_) => at += 2,
            }
        }
    }

    /// A sequence of commands that begins at a place: where it ends.
    fn escape(&mut self, bytes: &[u8], from: usize) -> usize {
        let group = bytes[from + 1];
        let mut at = from + 2;
        let mut family = 0;
        if bytes.get(at).is_some_and(|byte| *byte > 95) {
            family = bytes[at];
            at += 1;
        }
        while at < bytes.len() {
            let (number, end) = Number::read(bytes, at);
            let Some(last) = bytes.get(end) else { return end };
            at = end + 1;
            let letter = last.to_ascii_uppercase();
            let length = if letter == b'W' { usize::try_from(number.value).unwrap_or(0).min(bytes.len() - at) } else { 0 };
            if (group, family, letter) == (b'&', b'f', b'X') {
                self.macro_control(bytes, from, at, number.value);
            } else if self.recording.is_none() {
                self.command(group, family, letter, number, &bytes[at..at + length]);
            }
            at += length;
            if *last < b'a' {
                break;
            }
        }
        at
    }

    fn macro_control(&mut self, bytes: &[u8], from: usize, at: usize, value: i64) {
        match (value, self.recording) {
            (0, None) if self.running == 0 => self.recording = Some((self.state.macro_id, at)),
            (1, Some((id, start))) => {
                self.macros[id as usize] = Some(bytes[start..from].into());
                self.recording = None;
            }
            (_, None) => self.run_macro(value),
            _ => {}
        }
    }
}

/// The number of a command: its whole part, its tenths, and whether it had a sign.
struct Number {
    value: i64,
    tenths: i64,
    signed: bool,
}

impl Number {
    fn read(bytes: &[u8], from: usize) -> (Number, usize) {
        let mut at = from;
        let (mut value, mut tenths) = (0, 0);
        let sign = bytes.get(at).copied().filter(|byte| *byte == b'-' || *byte == b'+');
        at += usize::from(sign.is_some());
        while let Some(digit @ b'0'..=b'9') = bytes.get(at) {
            value = 10 * value + i64::from(digit - b'0');
            at += 1;
        }
        if bytes.get(at) == Some(&b'.') {
            at += 1;
            tenths = bytes.get(at).map_or(0, |digit| i64::from(digit.saturating_sub(b'0')));
            at += bytes[at..].iter().take_while(|byte| byte.is_ascii_digit()).count();
        }
        let value = if sign == Some(b'-') { -value } else { value };
        (Number { value, tenths, signed: sign.is_some() }, at)
    }
}

fn main() -> io::Result<()> {
    let mut bytes = Vec::new();
    io::stdin().lock().read_to_end(&mut bytes)?;
    let mut press = Press::new(io::BufWriter::new(io::stdout().lock()));
    press.run(&bytes);
    press.recording = None;
    press.reset();
    press.out.flush()
}
