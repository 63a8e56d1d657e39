use carbon_twin::call::{CallOfThree, Calls, TWIN};
use carbon_twin::engine::engine_calls;
use carbon_twin::header::size;

pub const EMPTY: &[u8] = b"H,0\n";

/// The twin's calls, and the engine's where its archive is linked.
pub fn both_calls() -> Vec<(&'static str, Calls)> {
    let mut calls = vec![("twin", TWIN)];
    calls.extend(engine_calls().map(|engine| ("engine", engine)));
    calls
}

/// Of each, the call that takes a line.
pub fn calls() -> Vec<(&'static str, CallOfThree)> {
    both_calls().into_iter().map(|(name, calls)| (name, calls.line)).collect()
}

/// The bytes written, or the refusal's number: the same with room for any answer, which is written without being
/// measured first, and with no byte of room to spare.
pub fn answer(call: CallOfThree, statement: &[u8], table: &[u8], line: &[u8]) -> Result<Vec<u8>, i64> {
    let answer = answer_into(call, statement, table, line, size("CARBON_OUT_BYTES"));
    let need = answer.as_ref().map_or(0, Vec::len);
    assert_eq!(answer_into(call, statement, table, line, need), answer, "into {need} bytes");
    answer
}

pub fn answer_into(
    call: CallOfThree,
    statement: &[u8],
    table: &[u8],
    line: &[u8],
    room: usize,
) -> Result<Vec<u8>, i64> {
    let mut out = vec![0xA5; room];
    let length = call(statement, table, line, &mut out);
    let kept = if length < 0 { 0 } else { length as usize };
    assert!(out[kept..].iter().all(|&byte| byte == 0xA5), "bytes past the result are touched");
    if length < 0 {
        return Err(-length);
    }
    out.truncate(kept);
    Ok(out)
}

/// What the recorder keeps between calls, and what it was told.
pub struct Recorder {
    pub call: CallOfThree,
    pub statement: Vec<u8>,
    pub table: Vec<u8>,
    pub told: String,
}

impl Recorder {
    pub fn new(call: CallOfThree) -> Recorder {
        Recorder { call, statement: EMPTY.to_vec(), table: Vec::new(), told: String::new() }
    }

    pub fn enter(&mut self, line: &str) -> Result<(), i64> {
        let out = answer(self.call, &self.statement, &self.table, line.as_bytes())?;
        if line.starts_with('T') {
            self.table = out;
            return Ok(());
        }
        let text = String::from_utf8(out).expect("answers are text");
        let reported =
            if line.starts_with(['R', 'W']) { text[..text.len() - 1].rfind('\n').unwrap() + 1 } else { text.len() };
        self.told.push_str(&text[reported..]);
        self.statement = text.as_bytes()[..reported].to_vec();
        Ok(())
    }

    pub fn enter_all(&mut self, lines: &str) {
        for line in lines.lines() {
            assert_eq!(self.enter(line), Ok(()), "{line}");
        }
    }

    pub fn stock(&self) -> u64 {
        let text = String::from_utf8_lossy(&self.statement).into_owned();
        let area = text.lines().find(|line| line.starts_with('A')).expect("an area stands");
        area.split(',').nth(7).unwrap().parse().unwrap()
    }
}
