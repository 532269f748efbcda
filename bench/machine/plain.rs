// The machine as plain Rust, of the same structure, for comparison with the proved one.
#[derive(Clone, Copy)]
#[allow(dead_code)]
enum Instr {
    Lui { rd: u8, imm: i32 },
    Auipc { rd: u8, imm: i32 },
    Jal { rd: u8, imm: i32 },
    Jalr { rd: u8, rs1: u8, imm: i32 },
    Beq { rs1: u8, rs2: u8, imm: i32 },
    Bne { rs1: u8, rs2: u8, imm: i32 },
    Blt { rs1: u8, rs2: u8, imm: i32 },
    Bge { rs1: u8, rs2: u8, imm: i32 },
    Bltu { rs1: u8, rs2: u8, imm: i32 },
    Bgeu { rs1: u8, rs2: u8, imm: i32 },
    Lb { rd: u8, rs1: u8, imm: i32 },
    Lh { rd: u8, rs1: u8, imm: i32 },
    Lw { rd: u8, rs1: u8, imm: i32 },
    Lbu { rd: u8, rs1: u8, imm: i32 },
    Lhu { rd: u8, rs1: u8, imm: i32 },
    Sb { rs1: u8, rs2: u8, imm: i32 },
    Sh { rs1: u8, rs2: u8, imm: i32 },
    Sw { rs1: u8, rs2: u8, imm: i32 },
    Addi { rd: u8, rs1: u8, imm: i32 },
    Slti { rd: u8, rs1: u8, imm: i32 },
    Sltiu { rd: u8, rs1: u8, imm: i32 },
    Xori { rd: u8, rs1: u8, imm: i32 },
    Ori { rd: u8, rs1: u8, imm: i32 },
    Andi { rd: u8, rs1: u8, imm: i32 },
    Slli { rd: u8, rs1: u8, imm: i32 },
    Srli { rd: u8, rs1: u8, imm: i32 },
    Srai { rd: u8, rs1: u8, imm: i32 },
    Add { rd: u8, rs1: u8, rs2: u8 },
    Sub { rd: u8, rs1: u8, rs2: u8 },
    Sll { rd: u8, rs1: u8, rs2: u8 },
    Slt { rd: u8, rs1: u8, rs2: u8 },
    Sltu { rd: u8, rs1: u8, rs2: u8 },
    Xor { rd: u8, rs1: u8, rs2: u8 },
    Srl { rd: u8, rs1: u8, rs2: u8 },
    Sra { rd: u8, rs1: u8, rs2: u8 },
    Or { rd: u8, rs1: u8, rs2: u8 },
    And { rd: u8, rs1: u8, rs2: u8 },
    Mul { rd: u8, rs1: u8, rs2: u8 },
    Mulh { rd: u8, rs1: u8, rs2: u8 },
    Mulhsu { rd: u8, rs1: u8, rs2: u8 },
    Mulhu { rd: u8, rs1: u8, rs2: u8 },
    Div { rd: u8, rs1: u8, rs2: u8 },
    Divu { rd: u8, rs1: u8, rs2: u8 },
    Rem { rd: u8, rs1: u8, rs2: u8 },
    Remu { rd: u8, rs1: u8, rs2: u8 },
    Fence { rd: u8, rs1: u8, imm: i32 },
    Ecall,
    Ebreak,
}

#[derive(Clone, Copy)]
enum FaultKind {
    Illegal,
    Unaligned,
    Outside,
    ReadOnly,
    Break,
}

enum Step {
    Went,
    Call,
    #[allow(dead_code)]
    Fault(FaultKind),
}

fn decode(w: u32) -> Option<Instr> {
    let rd = (w >> 7 & 31) as u8;
    let funct3 = w >> 12 & 7;
    let rs1 = (w >> 15 & 31) as u8;
    let rs2 = (w >> 20 & 31) as u8;
    let funct7 = w >> 25;
    let imm = w as i32 >> 20;
    Some(match w & 0x7f {
        0x37 => Instr::Lui { rd, imm: (w >> 12) as i32 },
        0x17 => Instr::Auipc { rd, imm: (w >> 12) as i32 },
        0x6f => {
            let imm = (w as i32 >> 11 & !0xfffff) | (w & 0xff000) as i32 | (w >> 9 & 0x800) as i32 | (w >> 20 & 0x7fe) as i32;
            Instr::Jal { rd, imm }
        }
        0x67 if funct3 == 0 => Instr::Jalr { rd, rs1, imm },
        0x63 => {
            let imm = (w as i32 >> 19 & !0xfff) | (w << 4 & 0x800) as i32 | (w >> 20 & 0x7e0) as i32 | (w >> 7 & 0x1e) as i32;
            match funct3 {
                0 => Instr::Beq { rs1, rs2, imm },
                1 => Instr::Bne { rs1, rs2, imm },
                4 => Instr::Blt { rs1, rs2, imm },
                5 => Instr::Bge { rs1, rs2, imm },
                6 => Instr::Bltu { rs1, rs2, imm },
                7 => Instr::Bgeu { rs1, rs2, imm },
                _ => return None,
            }
        }
        0x03 => match funct3 {
            0 => Instr::Lb { rd, rs1, imm },
            1 => Instr::Lh { rd, rs1, imm },
            2 => Instr::Lw { rd, rs1, imm },
            4 => Instr::Lbu { rd, rs1, imm },
            5 => Instr::Lhu { rd, rs1, imm },
            _ => return None,
        },
        0x23 => {
            let imm = (w as i32 >> 20 & !31) | rd as i32;
            match funct3 {
                0 => Instr::Sb { rs1, rs2, imm },
                1 => Instr::Sh { rs1, rs2, imm },
                2 => Instr::Sw { rs1, rs2, imm },
                _ => return None,
            }
        }
        0x13 => match (funct3, funct7) {
            (0, _) => Instr::Addi { rd, rs1, imm },
            (2, _) => Instr::Slti { rd, rs1, imm },
            (3, _) => Instr::Sltiu { rd, rs1, imm },
            (4, _) => Instr::Xori { rd, rs1, imm },
            (6, _) => Instr::Ori { rd, rs1, imm },
            (7, _) => Instr::Andi { rd, rs1, imm },
            (1, 0) => Instr::Slli { rd, rs1, imm: rs2 as i32 },
            (5, 0) => Instr::Srli { rd, rs1, imm: rs2 as i32 },
            (5, 32) => Instr::Srai { rd, rs1, imm: rs2 as i32 },
            _ => return None,
        },
        0x33 => match (funct7, funct3) {
            (0, 0) => Instr::Add { rd, rs1, rs2 },
            (32, 0) => Instr::Sub { rd, rs1, rs2 },
            (0, 1) => Instr::Sll { rd, rs1, rs2 },
            (0, 2) => Instr::Slt { rd, rs1, rs2 },
            (0, 3) => Instr::Sltu { rd, rs1, rs2 },
            (0, 4) => Instr::Xor { rd, rs1, rs2 },
            (0, 5) => Instr::Srl { rd, rs1, rs2 },
            (32, 5) => Instr::Sra { rd, rs1, rs2 },
            (0, 6) => Instr::Or { rd, rs1, rs2 },
            (0, 7) => Instr::And { rd, rs1, rs2 },
            (1, 0) => Instr::Mul { rd, rs1, rs2 },
            (1, 1) => Instr::Mulh { rd, rs1, rs2 },
            (1, 2) => Instr::Mulhsu { rd, rs1, rs2 },
            (1, 3) => Instr::Mulhu { rd, rs1, rs2 },
            (1, 4) => Instr::Div { rd, rs1, rs2 },
            (1, 5) => Instr::Divu { rd, rs1, rs2 },
            (1, 6) => Instr::Rem { rd, rs1, rs2 },
            (1, 7) => Instr::Remu { rd, rs1, rs2 },
            _ => return None,
        },
        0x0f if funct3 == 0 => Instr::Fence { rd, rs1, imm },
        0x73 if w == 0x73 => Instr::Ecall,
        0x73 if w == 0x0010_0073 => Instr::Ebreak,
        _ => return None,
    })
}

struct Machine {
    registers: [u32; 32],
    memory: Vec<u8>,
    read_only: u32,
    pc: u32,
    retired: u64,
}

impl Machine {
    fn reg(&self, r: u8) -> u32 {
        self.registers[r as usize]
    }

    fn set_reg(&mut self, r: u8, v: u32) {
        if r != 0 {
            self.registers[r as usize] = v;
        }
    }

    fn address(&self, rs1: u8, imm: i32) -> u32 {
        self.reg(rs1).wrapping_add(imm as u32)
    }

    fn retire(&mut self, target: u32) {
        self.pc = target;
        self.retired = self.retired.saturating_add(1);
    }

    fn pass(&mut self) -> Step {
        self.retire(self.pc.wrapping_add(4));
        Step::Went
    }

    fn put(&mut self, rd: u8, v: u32) -> Step {
        self.set_reg(rd, v);
        self.pass()
    }

    fn jump(&mut self, rd: u8, target: u32) -> Step {
        if target % 4 != 0 {
            return Step::Fault(FaultKind::Unaligned);
        }
        self.set_reg(rd, self.pc.wrapping_add(4));
        self.retire(target);
        Step::Went
    }

    fn branch(&mut self, taken: bool, imm: i32) -> Step {
        if taken { self.jump(0, self.pc.wrapping_add(imm as u32)) } else { self.pass() }
    }

    fn data_fault(&self, size: usize, at: u32) -> Option<FaultKind> {
        let place = at as usize;
        if place % size != 0 {
            Some(FaultKind::Unaligned)
        } else if place + size > self.memory.len() {
            Some(FaultKind::Outside)
        } else {
            None
        }
    }

    fn store(&mut self, at: u32, bytes: &[u8]) -> Step {
        if let Some(kind) = self.data_fault(bytes.len(), at) {
            return Step::Fault(kind);
        }
        if at < self.read_only {
            return Step::Fault(FaultKind::ReadOnly);
        }
        let place = at as usize;
        self.memory[place..place + bytes.len()].copy_from_slice(bytes);
        self.pass()
    }

    fn step(&mut self) -> Step {
        if self.pc % 4 != 0 {
            return Step::Fault(FaultKind::Unaligned);
        }
        let p = self.pc as usize;
        if p + 4 > self.read_only as usize {
            return Step::Fault(FaultKind::Outside);
        }
        let m = &self.memory;
        match decode(u32::from_le_bytes([m[p], m[p + 1], m[p + 2], m[p + 3]])) {
            Some(i) => self.execute(i),
            None => Step::Fault(FaultKind::Illegal),
        }
    }

    fn execute(&mut self, i: Instr) -> Step {
        match i {
            Instr::Lui { rd, imm } => self.put(rd, (imm as u32) << 12),
            Instr::Auipc { rd, imm } => self.put(rd, self.pc.wrapping_add((imm as u32) << 12)),
            Instr::Jal { rd, imm } => self.jump(rd, self.pc.wrapping_add(imm as u32)),
            Instr::Jalr { rd, rs1, imm } => self.jump(rd, self.address(rs1, imm) & !1),
            Instr::Beq { rs1, rs2, imm } => { let (a, b) = (self.reg(rs1), self.reg(rs2)); self.branch(a == b, imm) }
            Instr::Bne { rs1, rs2, imm } => { let (a, b) = (self.reg(rs1), self.reg(rs2)); self.branch(a != b, imm) }
            Instr::Blt { rs1, rs2, imm } => { let (a, b) = (self.reg(rs1), self.reg(rs2)); self.branch((a as i32) < (b as i32), imm) }
            Instr::Bge { rs1, rs2, imm } => { let (a, b) = (self.reg(rs1), self.reg(rs2)); self.branch((a as i32) >= (b as i32), imm) }
            Instr::Bltu { rs1, rs2, imm } => { let (a, b) = (self.reg(rs1), self.reg(rs2)); self.branch(a < b, imm) }
            Instr::Bgeu { rs1, rs2, imm } => { let (a, b) = (self.reg(rs1), self.reg(rs2)); self.branch(a >= b, imm) }
            Instr::Lb { rd, rs1, imm } => { let at = self.address(rs1, imm); if let Some(k) = self.data_fault(1, at) { return Step::Fault(k); } let (p, m) = (at as usize, &self.memory); let v = m[p] as i8 as u32; self.put(rd, v) }
            Instr::Lh { rd, rs1, imm } => { let at = self.address(rs1, imm); if let Some(k) = self.data_fault(2, at) { return Step::Fault(k); } let (p, m) = (at as usize, &self.memory); let v = i16::from_le_bytes([m[p], m[p + 1]]) as u32; self.put(rd, v) }
            Instr::Lw { rd, rs1, imm } => { let at = self.address(rs1, imm); if let Some(k) = self.data_fault(4, at) { return Step::Fault(k); } let (p, m) = (at as usize, &self.memory); let v = u32::from_le_bytes([m[p], m[p + 1], m[p + 2], m[p + 3]]); self.put(rd, v) }
            Instr::Lbu { rd, rs1, imm } => { let at = self.address(rs1, imm); if let Some(k) = self.data_fault(1, at) { return Step::Fault(k); } let (p, m) = (at as usize, &self.memory); let v = m[p] as u32; self.put(rd, v) }
            Instr::Lhu { rd, rs1, imm } => { let at = self.address(rs1, imm); if let Some(k) = self.data_fault(2, at) { return Step::Fault(k); } let (p, m) = (at as usize, &self.memory); let v = u16::from_le_bytes([m[p], m[p + 1]]) as u32; self.put(rd, v) }
            Instr::Sb { rs1, rs2, imm } => self.store(self.address(rs1, imm), &self.reg(rs2).to_le_bytes()[..1]),
            Instr::Sh { rs1, rs2, imm } => self.store(self.address(rs1, imm), &self.reg(rs2).to_le_bytes()[..2]),
            Instr::Sw { rs1, rs2, imm } => self.store(self.address(rs1, imm), &self.reg(rs2).to_le_bytes()[..4]),
            Instr::Addi { rd, rs1, imm } => { let (a, b) = (self.reg(rs1), imm as u32); self.put(rd, a.wrapping_add(b)) }
            Instr::Slti { rd, rs1, imm } => { let (a, b) = (self.reg(rs1), imm as u32); self.put(rd, ((a as i32) < (b as i32)) as u32) }
            Instr::Sltiu { rd, rs1, imm } => { let (a, b) = (self.reg(rs1), imm as u32); self.put(rd, (a < b) as u32) }
            Instr::Xori { rd, rs1, imm } => { let (a, b) = (self.reg(rs1), imm as u32); self.put(rd, a ^ b) }
            Instr::Ori { rd, rs1, imm } => { let (a, b) = (self.reg(rs1), imm as u32); self.put(rd, a | b) }
            Instr::Andi { rd, rs1, imm } => { let (a, b) = (self.reg(rs1), imm as u32); self.put(rd, a & b) }
            Instr::Slli { rd, rs1, imm } => { let (a, b) = (self.reg(rs1), imm as u32); self.put(rd, a << (b % 32)) }
            Instr::Srli { rd, rs1, imm } => { let (a, b) = (self.reg(rs1), imm as u32); self.put(rd, a >> (b % 32)) }
            Instr::Srai { rd, rs1, imm } => { let (a, b) = (self.reg(rs1), imm as u32); self.put(rd, ((a as i32) >> (b % 32)) as u32) }
            Instr::Add { rd, rs1, rs2 } => { let (a, b) = (self.reg(rs1), self.reg(rs2)); self.put(rd, a.wrapping_add(b)) }
            Instr::Sub { rd, rs1, rs2 } => { let (a, b) = (self.reg(rs1), self.reg(rs2)); self.put(rd, a.wrapping_sub(b)) }
            Instr::Sll { rd, rs1, rs2 } => { let (a, b) = (self.reg(rs1), self.reg(rs2)); self.put(rd, a << (b % 32)) }
            Instr::Slt { rd, rs1, rs2 } => { let (a, b) = (self.reg(rs1), self.reg(rs2)); self.put(rd, ((a as i32) < (b as i32)) as u32) }
            Instr::Sltu { rd, rs1, rs2 } => { let (a, b) = (self.reg(rs1), self.reg(rs2)); self.put(rd, (a < b) as u32) }
            Instr::Xor { rd, rs1, rs2 } => { let (a, b) = (self.reg(rs1), self.reg(rs2)); self.put(rd, a ^ b) }
            Instr::Srl { rd, rs1, rs2 } => { let (a, b) = (self.reg(rs1), self.reg(rs2)); self.put(rd, a >> (b % 32)) }
            Instr::Sra { rd, rs1, rs2 } => { let (a, b) = (self.reg(rs1), self.reg(rs2)); self.put(rd, ((a as i32) >> (b % 32)) as u32) }
            Instr::Or { rd, rs1, rs2 } => { let (a, b) = (self.reg(rs1), self.reg(rs2)); self.put(rd, a | b) }
            Instr::And { rd, rs1, rs2 } => { let (a, b) = (self.reg(rs1), self.reg(rs2)); self.put(rd, a & b) }
            Instr::Mul { rd, rs1, rs2 } => { let (a, b) = (self.reg(rs1), self.reg(rs2)); self.put(rd, a.wrapping_mul(b)) }
            Instr::Mulh { rd, rs1, rs2 } => { let (a, b) = (self.reg(rs1), self.reg(rs2)); self.put(rd, ((a as i32 as i64 * b as i32 as i64) >> 32) as u32) }
            Instr::Mulhsu { rd, rs1, rs2 } => { let (a, b) = (self.reg(rs1), self.reg(rs2)); self.put(rd, ((a as i32 as i64 * b as i64) >> 32) as u32) }
            Instr::Mulhu { rd, rs1, rs2 } => { let (a, b) = (self.reg(rs1), self.reg(rs2)); self.put(rd, ((a as u64 * b as u64) >> 32) as u32) }
            Instr::Div { rd, rs1, rs2 } => { let (a, b) = (self.reg(rs1), self.reg(rs2)); self.put(rd, if b == 0 { u32::MAX } else { (a as i32).wrapping_div(b as i32) as u32 }) }
            Instr::Divu { rd, rs1, rs2 } => { let (a, b) = (self.reg(rs1), self.reg(rs2)); self.put(rd, if b == 0 { u32::MAX } else { a / b }) }
            Instr::Rem { rd, rs1, rs2 } => { let (a, b) = (self.reg(rs1), self.reg(rs2)); self.put(rd, if b == 0 { a } else { (a as i32).wrapping_rem(b as i32) as u32 }) }
            Instr::Remu { rd, rs1, rs2 } => { let (a, b) = (self.reg(rs1), self.reg(rs2)); self.put(rd, if b == 0 { a } else { a % b }) }
            Instr::Fence { .. } => self.pass(),
            Instr::Ecall => { self.pass(); Step::Call }
            Instr::Ebreak => Step::Fault(FaultKind::Break),
        }
    }
}

const WORDS: [u32; 13] = [
    0x009895b7, // lui  a1, 0x989
    0x68058593, // addi a1, a1, 1664 (a1 = 10,000,000)
    0x00328293, // addi t0, t0, 3
    0x00534333, // xor  t1, t1, t0
    0x04602023, // sw   t1, 64(x0)
    0x04002383, // lw   t2, 64(x0)
    0x02538e33, // mul  t3, t2, t0
    0x005e5e93, // srli t4, t3, 5
    0x01d30333, // add  t1, t1, t4
    0x00533f33, // sltu t5, t1, t0
    0xfff58593, // addi a1, a1, -1
    0xfc059ee3, // bne  a1, x0, -36
    0x00100073, // ebreak
];

fn main() {
    let mut memory = vec![0u8; 4096];
    for (index, word) in WORDS.iter().enumerate() {
        memory[index * 4..index * 4 + 4].copy_from_slice(&word.to_le_bytes());
    }
    let mut machine = Machine { registers: [0; 32], memory, read_only: 52, pc: 0, retired: 0 };
    for _ in 0..1_000_000_000u64 {
        match machine.step() {
            Step::Went | Step::Call => {}
            Step::Fault(_) => break,
        }
    }
    println!("{} {}", machine.retired, machine.reg(6));
}
