// The library's functions that go by a reading: those by the manual have `_manual` in their names.

use crate::c;
use crate::Reading;

pub struct Functions {
    pub decode: c::Decode,
    pub encode: c::Encode,
    pub line: c::Line,
    pub sweep: c::Sweep,
    pub sweep_stopping: c::SweepStopping,
}

pub fn of(reading: Reading) -> Functions {
    match reading {
        Reading::Present => Functions {
            decode: c::m16c_decode,
            encode: c::m16c_encode,
            line: c::m16c_line,
            sweep: c::m16c_sweep,
            sweep_stopping: c::m16c_sweep_stopping,
        },
        Reading::Manual => Functions {
            decode: c::m16c_decode_manual,
            encode: c::m16c_encode_manual,
            line: c::m16c_line_manual,
            sweep: c::m16c_sweep_manual,
            sweep_stopping: c::m16c_sweep_manual_stopping,
        },
    }
}
