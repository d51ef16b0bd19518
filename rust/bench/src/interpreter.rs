// An independent interpreter of the virtual code's instructions 0 to 27, written for speed in plain Rust: one struct, lent by `&mut`.
pub struct Process<'a> {
    pub code: &'a [u16],
    pub common: &'a mut [u16],
    pub own: &'a mut [u16],
    pub address: usize,
    pub line: u16,
    pub s: usize,
    pub b: usize,
    pub c: usize,
    pub floor: usize,
    pub holding: bool,
    pub job: Option<Job>,
}

#[derive(Clone, Copy)]
pub struct Job {
    pub s: usize,
    pub b: usize,
    pub address: usize,
    pub p: usize,
    pub reason: u16,
}

// how a burst ended, for a caller that asks
#[allow(dead_code)]
pub enum End {
    Budget,
    Call(u16),
    Fault(u16),
    Job,
}

type Step = Result<(), u16>;

fn fitted(z: i32) -> Result<u16, u16> {
    if (-32768..=32767).contains(&z) {
        Ok(z as i16 as u16)
    } else {
        Err(1)
    }
}

impl Process<'_> {
    #[inline(always)]
    fn arg(&self, j: usize) -> u16 {
        self.code[self.address + j]
    }

    #[inline(always)]
    fn needs_code(&self, k: usize) -> Step {
        if self.address + k <= self.code.len() {
            Ok(())
        } else {
            Err(7)
        }
    }

    #[inline(always)]
    fn needs_words(&self, k: usize) -> Step {
        if self.s + k <= self.b {
            Ok(())
        } else {
            Err(7)
        }
    }

    #[inline(always)]
    fn needs_room(&self, k: usize) -> Step {
        if self.floor + k <= self.s {
            Ok(())
        } else {
            Err(6)
        }
    }

    #[inline(always)]
    fn word(&self, a: usize) -> u16 {
        self.own[a - 2048]
    }

    #[inline(always)]
    fn push(&mut self, w: u16) -> Step {
        self.needs_room(1)?;
        self.s -= 1;
        self.own[self.s - 2048] = w;
        Ok(())
    }

    #[inline(always)]
    fn target(&self, t: u16) -> Result<usize, u16> {
        if (t as usize) < self.code.len() {
            Ok(t as usize)
        } else {
            Err(7)
        }
    }

    #[inline(always)]
    fn allowed(&self, a: u16) -> Result<usize, u16> {
        let a = a as usize;
        if let Some(job) = self.job {
            if a < self.floor || self.c + job.p <= a {
                return Err(2);
            }
        }
        if a < 4096 {
            Ok(a)
        } else {
            Err(2)
        }
    }

    #[inline(always)]
    fn binary(&mut self, op: u16) -> Step {
        self.needs_words(2)?;
        let (b, a) = (self.word(self.s), self.word(self.s + 1));
        let (x, y) = (a as i16 as i32, b as i16 as i32);
        let w = match op {
            9 => a & b,
            10 => a | b,
            12 => fitted(x + y)?,
            13 => fitted(x - y)?,
            14 => fitted(x * y)?,
            15 => {
                if y == 0 {
                    return Err(1);
                } else {
                    fitted(x / y)?
                }
            }
            16 => {
                if y == 0 {
                    return Err(1);
                } else {
                    fitted(x % y)?
                }
            }
            17 => (x < y) as u16,
            18 => (x == y) as u16,
            _ => (x > y) as u16,
        };
        self.s += 1;
        self.own[self.s - 2048] = w;
        self.address += 1;
        Ok(())
    }

    fn end_job(&mut self, job: Job, result: u16) -> Step {
        if job.s <= self.floor {
            return Err(6);
        }
        self.s = job.s - 1;
        self.own[self.s - 2048] = result;
        self.b = job.b;
        self.c = 4096;
        self.address = job.address;
        self.job = None;
        Ok(())
    }

    #[inline(always)]
    fn perform(&mut self, op: u16) -> Step {
        match op {
            0 => {
                self.needs_code(2)?;
                self.line = self.arg(1);
                self.address += 2;
            }
            1 => {
                self.needs_code(2)?;
                self.push(self.arg(1))?;
                self.address += 2;
            }
            2 => {
                self.needs_words(1)?;
                let a = self.allowed(self.word(self.s))?;
                self.own[self.s - 2048] = if a < 2048 { self.common[a] } else { self.own[a - 2048] };
                self.address += 1;
            }
            3 => {
                self.needs_words(2)?;
                let w = self.word(self.s);
                let a = self.allowed(self.word(self.s + 1))?;
                if a < 2048 {
                    self.common[a] = w
                } else {
                    self.own[a - 2048] = w
                }
                self.s += 2;
                self.address += 1;
            }
            4 => {
                self.needs_code(2)?;
                let w = fitted(self.b as i32 + self.arg(1) as i16 as i32)?;
                self.push(w)?;
                self.address += 2;
            }
            5 => {
                self.needs_words(1)?;
                self.s += 1;
                self.address += 1;
            }
            6 => {
                self.needs_code(4)?;
                self.needs_words(2)?;
                let i = self.word(self.s) as i16 as i64;
                let (min, max, len) = (self.arg(1) as i16 as i64, self.arg(2) as i16 as i64, self.arg(3) as i64);
                if i < min || max < i {
                    return Err(3);
                }
                let a = self.word(self.s + 1) as i16 as i64 + (i - min) * len;
                if !(0..=4095).contains(&a) {
                    return Err(2);
                }
                self.s += 1;
                self.own[self.s - 2048] = a as u16;
                self.address += 4;
            }
            7 => {
                self.needs_code(3)?;
                self.needs_words(1)?;
                let i = self.word(self.s) as i16;
                if i < self.arg(1) as i16 || (self.arg(2) as i16) < i {
                    return Err(3);
                }
                self.address += 3;
            }
            8 | 11 => {
                self.needs_words(1)?;
                let a = self.word(self.s);
                self.own[self.s - 2048] = if op == 8 { (a == 0) as u16 } else { fitted(-(a as i16 as i32))? };
                self.address += 1;
            }
            9..=19 => self.binary(op)?,
            20 => {
                self.needs_code(2)?;
                self.address = self.target(self.arg(1))?;
            }
            21 => {
                self.needs_code(2)?;
                self.needs_words(1)?;
                let next = if self.word(self.s) == 0 { self.target(self.arg(1))? } else { self.address + 2 };
                self.s += 1;
                self.address = next;
            }
            22 => {
                self.needs_code(3)?;
                let m = self.arg(2) as usize;
                self.needs_code(3 + m)?;
                self.needs_words(1)?;
                let k = self.word(self.s) as i16 as i32 - self.arg(1) as i16 as i32;
                if k < 0 || m as i32 <= k {
                    return Err(3);
                }
                let t = self.target(self.arg(3 + k as usize))?;
                self.s += 1;
                self.address = t;
            }
            23 => {
                self.needs_code(2)?;
                let t = self.target(self.arg(1))?;
                self.push(self.address as u16 + 2)?;
                self.address = t;
            }
            24 => {
                self.needs_code(2)?;
                let m = self.arg(1) as usize;
                self.needs_room(m + 1)?;
                let b = self.s - 1;
                self.own[b - 2048] = self.b as u16;
                self.own[b - m - 2048..b - 2048].fill(0);
                self.b = b;
                self.s = b - m;
                self.address += 2;
            }
            25 => {
                self.needs_code(2)?;
                let s = self.b + 2 + self.arg(1) as usize;
                if self.b < self.s || self.c < s {
                    return Err(7);
                }
                let (old, back) = (self.word(self.b) as usize, self.word(self.b + 1) as usize);
                if old < s || self.c < old || self.code.len() <= back {
                    return Err(7);
                }
                self.s = s;
                self.b = old;
                self.address = back;
            }
            26 => {
                self.needs_code(3)?;
                if self.job.is_some() {
                    return Err(7);
                }
                let p = self.arg(2) as usize;
                self.needs_words(p)?;
                if self.holding {
                    return Err(8);
                }
                let t = self.target(self.arg(1))?;
                self.job = Some(Job { s: self.s, b: self.b, address: self.address + 3, p, reason: 0 });
                self.b = self.s;
                self.c = self.s;
                self.address = t;
            }
            27 => match self.job {
                Some(job) => self.end_job(job, job.reason)?,
                None => return Err(7),
            },
            _ => return Err(7),
        }
        Ok(())
    }

    pub fn burst(&mut self, budget: u32) -> (u32, End) {
        let mut count = 0;
        while count < budget {
            let Some(&op) = self.code.get(self.address) else {
                return (count, End::Fault(7));
            };
            let job = self.job;
            if op == 21 {
                if let Some(j) = job {
                    if j.reason != 0 {
                        if let Err(f) = self.end_job(j, j.reason) {
                            return (count, End::Fault(f));
                        }
                        return (count + 1, End::Job);
                    }
                }
            }
            if op == 28 && job.is_none() && self.address + 2 <= self.code.len() && self.arg(1) <= 11 {
                return (count, End::Call(self.arg(1)));
            }
            if let Err(f) = self.perform(op) {
                match job {
                    None => return (count, End::Fault(f)),
                    Some(j) => {
                        if let Err(f) = self.end_job(j, f) {
                            return (count, End::Fault(f));
                        }
                    }
                }
            }
            count += 1;
            if job.is_some() && self.job.is_none() {
                return (count, End::Job);
            }
        }
        (count, End::Budget)
    }
}
