//! The answers of the entries, laid out as in include/reshmokhit.h.

#[repr(C)]
#[derive(Clone, Copy, PartialEq, Debug)]
pub struct Written {
    pub refusal: u8,
    pub length: usize,
}

#[repr(C)]
#[derive(Clone, Copy, PartialEq, Debug)]
pub struct PathWritten {
    pub refusal: u8,
    pub axes: usize,
    pub depth: usize,
}

/// Vertex is 0 on the axes that the dimension lacks, and all 0 on a refusal.
#[repr(C)]
#[derive(Clone, Copy, PartialEq, Debug)]
pub struct Crossed {
    pub refusal: u8,
    pub place: u8,
    pub length: usize,
    pub vertex: [u16; 4],
}

#[repr(C)]
#[derive(Clone, Copy, PartialEq, Debug)]
pub struct SheetAnswer {
    pub refusal: u8,
    pub offset: usize,
    pub records: usize,
}

/// Compatible is 1 for yes and 0 for no.
#[repr(C)]
#[derive(Clone, Copy, PartialEq, Debug)]
pub struct CompatibleAnswer {
    pub refusal: u8,
    pub compatible: u8,
    pub offset: usize,
}

#[repr(C)]
#[derive(Clone, Copy, PartialEq, Debug)]
pub struct LeafAnswer {
    pub refusal: u8,
    pub offset: usize,
    pub number: usize,
    pub length: usize,
}

/// Equal where the value is so bit for bit: -0.0 is not +0.0.
#[repr(C)]
#[derive(Clone, Copy, Debug)]
pub struct ValueAnswer {
    pub refusal: u8,
    pub offset: usize,
    pub value: f64,
}

impl PartialEq for ValueAnswer {
    fn eq(&self, other: &ValueAnswer) -> bool {
        let parts = |answer: &ValueAnswer| (answer.refusal, answer.offset, answer.value.to_bits());
        parts(self) == parts(other)
    }
}

/// Slope is +0.0 on the axes that the dimension lacks, and all +0.0 on a refusal. Equal bit for bit too.
#[repr(C)]
#[derive(Clone, Copy, Debug)]
pub struct SlopeAnswer {
    pub refusal: u8,
    pub offset: usize,
    pub slope: [f64; 4],
}

impl SlopeAnswer {
    pub fn bits(&self) -> [u64; 4] {
        self.slope.map(f64::to_bits)
    }
}

impl PartialEq for SlopeAnswer {
    fn eq(&self, other: &SlopeAnswer) -> bool {
        let parts = |answer: &SlopeAnswer| (answer.refusal, answer.offset, answer.bits());
        parts(self) == parts(other)
    }
}

impl Written {
    pub fn refused(refusal: u8) -> Written {
        Written { refusal, length: 0 }
    }
}

impl PathWritten {
    pub fn refused(refusal: u8) -> PathWritten {
        PathWritten { refusal, axes: 0, depth: 0 }
    }
}

impl Crossed {
    pub fn refused(refusal: u8) -> Crossed {
        Crossed { refusal, place: 0, length: 0, vertex: [0; 4] }
    }
}

impl CompatibleAnswer {
    pub fn refused(refusal: u8, offset: usize) -> CompatibleAnswer {
        CompatibleAnswer { refusal, compatible: 0, offset }
    }
}

impl LeafAnswer {
    pub fn refused(refusal: u8, offset: usize) -> LeafAnswer {
        LeafAnswer { refusal, offset, number: 0, length: 0 }
    }
}

impl ValueAnswer {
    pub fn refused(refusal: u8, offset: usize) -> ValueAnswer {
        ValueAnswer { refusal, offset, value: f64::from_bits(0) }
    }
}

impl SlopeAnswer {
    pub fn refused(refusal: u8, offset: usize) -> SlopeAnswer {
        SlopeAnswer { refusal, offset, slope: [f64::from_bits(0); 4] }
    }
}
