//! The exported functions as C has them: a slice is a pointer and a number of elements. causes.h says what each refuses
//! and touches.
//!
//! # Safety
//!
//! Each pointer is aligned and reaches the given number of elements, which are initialized; memory that is written
//! overlaps no other memory lent to the call. Nothing else is asked.

#[allow(clippy::too_many_arguments)]
extern "C" {
    /// Reads a case file into five tables; answer: line, then the 23 words of the case record.
    pub fn causes_read(
        file: *const u8,
        file_bytes: usize,
        clauses: *mut u64,
        clause_words: usize,
        constraints: *mut u64,
        constraint_words: usize,
        formula: *mut u8,
        formula_bytes: usize,
        names: *mut u8,
        names_bytes: usize,
        prices: *mut u32,
        price_entries: usize,
        answer: *mut u64,
        answer_words: usize,
    ) -> u32;

    /// Settles one setting of a case; answer: the true atoms, the false atoms, the rounds, how many are decided.
    pub fn causes_settle(
        record: *const u64,
        record_words: usize,
        clauses: *const u64,
        clause_words: usize,
        constraints: *const u64,
        constraint_words: usize,
        formula: *const u8,
        formula_bytes: usize,
        setting: u64,
        answer: *mut u64,
        answer_words: usize,
    ) -> u32;

    /// Answers the question of a case; answer: 16 verdicts, number of minimal explanations, how many listed, rounds,
    /// decided total, lowest cost, cheapest setting.
    pub fn causes_question(
        record: *const u64,
        record_words: usize,
        clauses: *const u64,
        clause_words: usize,
        constraints: *const u64,
        constraint_words: usize,
        formula: *const u8,
        formula_bytes: usize,
        prices: *const u32,
        price_entries: usize,
        list: *mut u16,
        list_slots: usize,
        work: *mut u8,
        work_bytes: usize,
        answer: *mut u64,
        answer_words: usize,
    ) -> u32;

    /// Numbers the atoms of a case by layers, or finds a ring; answer: 1 or 0, the number of entries, 64 entries.
    pub fn causes_layers(
        record: *const u64,
        record_words: usize,
        clauses: *const u64,
        clause_words: usize,
        constraints: *const u64,
        constraint_words: usize,
        formula: *const u8,
        formula_bytes: usize,
        answer: *mut u64,
        answer_words: usize,
    ) -> u32;

    /// Writes a case back as a file; answer: the length of the text.
    pub fn causes_write(
        record: *const u64,
        record_words: usize,
        clauses: *const u64,
        clause_words: usize,
        constraints: *const u64,
        constraint_words: usize,
        formula: *const u8,
        formula_bytes: usize,
        names: *const u8,
        names_bytes: usize,
        prices: *const u32,
        price_entries: usize,
        out: *mut u8,
        out_bytes: usize,
        answer: *mut u64,
        answer_words: usize,
    ) -> u32;

    /// Writes the report of a case file; answer: the length of the text.
    pub fn causes_report(
        file: *const u8,
        file_bytes: usize,
        out: *mut u8,
        out_bytes: usize,
        answer: *mut u64,
        answer_words: usize,
    ) -> u32;

    /// Generates the load of a seed, with so many atoms and clauses; answer: the length of the text.
    pub fn causes_generate(
        seed: u32,
        atoms: u64,
        clauses: u64,
        out: *mut u8,
        out_bytes: usize,
        answer: *mut u64,
        answer_words: usize,
    ) -> u32;
}
