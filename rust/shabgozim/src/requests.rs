//! The 32 requests of the high-resolution head, from words to meaning and back.

use crate::raw;
use crate::text::h_refusal;

/// A request, as the table of source document 000, section 4.2, has them. Beside
/// each are the values that it allows: the whole parameter of its word, also
/// where the table leaves only one.
#[derive(Clone, Copy, Debug, PartialEq, Eq)]
#[repr(u8)]
pub enum Request {
    /// 0 to 255.
    HSetBias,
    /// 0 to 255.
    HSetILampSpectT,
    /// 0 to 255.
    HSetILampSpectS,
    /// 0 to 255.
    HSetILampRadio,
    /// 0 to 255.
    HSetIShutter,
    /// 0 to 1023.
    HSetIntNum1,
    /// 0 to 255.
    HSetIntNum2,
    /// 0.
    HInitPixMapUpld,
    /// 0.
    HInitPixMapDnld,
    /// 0 to 255.
    HSetPixMapData,
    /// 0.
    HDnldPixMapData,
    /// 0 to 3; see [`PemMode`].
    HSetPemMode,
    /// 0.
    HNop,
    /// 0.
    HStartS,
    /// 0.
    HStartHk,
    /// 0.
    HStopReadout,
    /// 0.
    HResync,
    /// 1.
    HSetDetOn,
    /// 0.
    HSetDetOff,
    /// 1: closed.
    HSetShutterOn,
    /// 0: open.
    HSetShutterOff,
    /// 0 is off, 1 is on.
    HSetShutterStatus,
    /// 1.
    HSetFpaHtrOn,
    /// 0.
    HSetFpaHtrOff,
    /// 1.
    HSetLampSpectTOn,
    /// 2.
    HSetLampSpectSOn,
    /// 4.
    HSetLampRadioOn,
    /// 0: all three lamps.
    HSetCalOff,
    /// 1.
    HSetDetTempOn,
    /// 0.
    HSetDetTempOff,
    /// 0 to 1023; see [`CoverParameter`].
    HSetCover,
    /// 0 to 1023.
    HSetTestInit,
}

/// The table's names, in its order.
const NAMES: [&str; 32] = [
    "HSET_Bias",
    "HSET_I_Lamp_Spect_T",
    "HSET_I_Lamp_Spect_S",
    "HSET_I_Lamp_Radio",
    "HSET_I_Shutter",
    "HSET_Int_Num1",
    "HSET_Int_Num2",
    "HINIT_Pix_Map_Upld",
    "HINIT_Pix_Map_Dnld",
    "HSET_Pix_Map_Data",
    "HDNLD_Pix_Map_Data",
    "HSET_PEM_Mode",
    "HNOP",
    "HSTART_S",
    "HSTART_HK",
    "HSTOP_Readout",
    "HRESYNC",
    "HSET_Det/On",
    "HSET_Det/Off",
    "HSET_Shutter/On",
    "HSET_Shutter/Off",
    "HSET_Shutter_Status",
    "HSET_FPA_Htr/On",
    "HSET_FPA_Htr/Off",
    "HSET_Lamp_Spect_T/On",
    "HSET_Lamp_Spect_S/On",
    "HSET_Lamp_Radio/On",
    "HSET_Cal/Off",
    "HSET_Det_Temp/On",
    "HSET_Det_Temp/Off",
    "HSET_Cover",
    "HSET_Test_Init",
];

impl Request {
    /// Every request, in the table's order.
    pub const ALL: [Request; 32] = [
        Request::HSetBias,
        Request::HSetILampSpectT,
        Request::HSetILampSpectS,
        Request::HSetILampRadio,
        Request::HSetIShutter,
        Request::HSetIntNum1,
        Request::HSetIntNum2,
        Request::HInitPixMapUpld,
        Request::HInitPixMapDnld,
        Request::HSetPixMapData,
        Request::HDnldPixMapData,
        Request::HSetPemMode,
        Request::HNop,
        Request::HStartS,
        Request::HStartHk,
        Request::HStopReadout,
        Request::HResync,
        Request::HSetDetOn,
        Request::HSetDetOff,
        Request::HSetShutterOn,
        Request::HSetShutterOff,
        Request::HSetShutterStatus,
        Request::HSetFpaHtrOn,
        Request::HSetFpaHtrOff,
        Request::HSetLampSpectTOn,
        Request::HSetLampSpectSOn,
        Request::HSetLampRadioOn,
        Request::HSetCalOff,
        Request::HSetDetTempOn,
        Request::HSetDetTempOff,
        Request::HSetCover,
        Request::HSetTestInit,
    ];

    /// Its place in the table, counted from 0.
    pub fn number(self) -> u8 {
        self as u8
    }

    /// The request with this number; none for 32 and above.
    pub fn from_number(number: u8) -> Option<Request> {
        Request::ALL.get(usize::from(number)).copied()
    }

    /// Its name in the table.
    ///
    /// ```
    /// assert_eq!(shabgozim::Request::HSetDetOn.name(), "HSET_Det/On");
    /// ```
    pub fn name(self) -> &'static str {
        NAMES[usize::from(self.number())]
    }
}

/// What a word asks for.
#[derive(Clone, Copy, Debug, PartialEq, Eq)]
pub enum Meaning {
    /// This request alone has the word.
    One(Request),
    /// Several requests have it.
    Shared(SharedWord),
}

/// What is meant by words that several requests have; each with its number in
/// the C interface.
#[derive(Clone, Copy, Debug, PartialEq, Eq)]
pub enum SharedWord {
    /// 2000: `HSET_Bias` with value 0, or `HRESYNC`.
    BiasOrResync = 0x80,
    /// 2400 to 24FF: the current of one of the three lamps.
    LampCurrent = 0x81,
    /// 3800: the map's address is reset, for upload or download.
    PixelMapReset = 0x87,
}

impl Meaning {
    /// Every request that has the word.
    ///
    /// ```
    /// use shabgozim::{decode_request, Meaning, Request, SharedWord};
    ///
    /// let (meaning, value) = decode_request(0x2000).unwrap();
    /// assert_eq!((meaning, value), (Meaning::Shared(SharedWord::BiasOrResync), 0));
    /// assert_eq!(meaning.requests(), [Request::HSetBias, Request::HResync]);
    /// ```
    pub fn requests(self) -> &'static [Request] {
        match self {
            Meaning::One(request) => {
                let place = usize::from(request.number());
                &Request::ALL[place..=place]
            }
            Meaning::Shared(SharedWord::BiasOrResync) => &[Request::HSetBias, Request::HResync],
            Meaning::Shared(SharedWord::LampCurrent) => &[
                Request::HSetILampSpectT,
                Request::HSetILampSpectS,
                Request::HSetILampRadio,
            ],
            Meaning::Shared(SharedWord::PixelMapReset) => {
                &[Request::HInitPixMapUpld, Request::HInitPixMapDnld]
            }
        }
    }

    fn from_number(number: u8) -> Option<Meaning> {
        match number {
            0x80 => Some(Meaning::Shared(SharedWord::BiasOrResync)),
            0x81 => Some(Meaning::Shared(SharedWord::LampCurrent)),
            0x87 => Some(Meaning::Shared(SharedWord::PixelMapReset)),
            number => Request::from_number(number).map(Meaning::One),
        }
    }
}

/// Why a word or a request is refused; each with document 02's number.
#[derive(Clone, Copy, Debug, PartialEq, Eq)]
pub enum RequestRefusal {
    /// No request has the word's code.
    Unknown = 43,
    /// The request does not allow the value.
    OutOfRange = 44,
}

impl RequestRefusal {
    /// Document 02's number of this refusal.
    pub fn number(self) -> u8 {
        self as u8
    }

    /// This refusal in words: one line, without its newline.
    ///
    /// ```
    /// use shabgozim::RequestRefusal;
    ///
    /// assert_eq!(RequestRefusal::Unknown.in_words(), "refused 43: no such request");
    /// ```
    pub fn in_words(self) -> String {
        h_refusal(self.number())
    }

    fn of(number: u32) -> RequestRefusal {
        match number {
            43 => RequestRefusal::Unknown,
            _ => RequestRefusal::OutOfRange,
        }
    }
}

/// Finds what a word means, and its value.
///
/// ```
/// use shabgozim::{decode_request, Meaning, Request, RequestRefusal};
///
/// let on = (Meaning::One(Request::HSetDetOn), 1);
/// assert_eq!(decode_request(0x4401), Ok(on));
/// assert_eq!(decode_request(0x4402), Err(RequestRefusal::OutOfRange));
/// assert_eq!(decode_request(0xFFFF), Err(RequestRefusal::Unknown));
/// ```
pub fn decode_request(word: u16) -> Result<(Meaning, u16), RequestRefusal> {
    let answer = raw::h_decode(word);
    let meaning = Meaning::from_number((answer >> 16) as u8);
    match (answer >> 24, meaning) {
        (0, Some(meaning)) => Ok((meaning, answer as u16)),
        (number, _) => Err(RequestRefusal::of(number)),
    }
}

/// The word of a request with this value. A [`RequestRefusal::Unknown`] does not
/// come, since every [`Request`] is one of the table's.
///
/// ```
/// use shabgozim::{encode_request, CoverParameter, Request, RequestRefusal};
///
/// let open = CoverParameter { steps: 81, sensors: true, wave: false, opens: true };
/// assert_eq!(encode_request(Request::HSetCover, open.value()), Ok(0x4A8D));
/// let refused = encode_request(Request::HSetBias, 256);
/// assert_eq!(refused, Err(RequestRefusal::OutOfRange));
/// ```
pub fn encode_request(request: Request, value: u16) -> Result<u16, RequestRefusal> {
    let answer = raw::h_encode(request.number(), value);
    match answer >> 24 {
        0 => Ok(answer as u16),
        number => Err(RequestRefusal::of(number)),
    }
}

/// The fields of [`Request::HSetCover`]'s value.
#[derive(Clone, Copy, Debug, PartialEq, Eq)]
pub struct CoverParameter {
    /// 0 to 127; [`encode_request`] refuses the value of more.
    pub steps: u8,
    /// Whether the Hall sensors are enabled.
    pub sensors: bool,
    /// One wave; else half a wave.
    pub wave: bool,
    /// The cover opens; else it closes.
    pub opens: bool,
}

impl CoverParameter {
    /// The fields of a value. Bits above the lowest ten say nothing.
    pub fn from_value(value: u16) -> CoverParameter {
        CoverParameter {
            steps: (value >> 3 & 0x7F) as u8,
            sensors: value >> 2 & 1 == 1,
            wave: value >> 1 & 1 == 1,
            opens: value & 1 == 1,
        }
    }

    /// The value that has these fields.
    pub fn value(self) -> u16 {
        u16::from(self.steps) << 3
            | u16::from(self.sensors) << 2
            | u16::from(self.wave) << 1
            | u16::from(self.opens)
    }
}

/// The fields of [`Request::HSetPemMode`]'s value.
///
/// ```
/// use shabgozim::PemMode;
///
/// let mode = PemMode { simulation: true, all_matrix: false };
/// assert_eq!(mode.value(), 2);
/// assert_eq!(PemMode::from_value(2), mode);
/// ```
#[derive(Clone, Copy, Debug, PartialEq, Eq)]
pub struct PemMode {
    /// Simulation; else observation.
    pub simulation: bool,
    /// The whole matrix; else 8 orders.
    pub all_matrix: bool,
}

impl PemMode {
    /// The fields of a value. Bits above the lowest two say nothing.
    pub fn from_value(value: u16) -> PemMode {
        PemMode {
            simulation: value >> 1 & 1 == 1,
            all_matrix: value & 1 == 1,
        }
    }

    /// The value that has these fields.
    pub fn value(self) -> u16 {
        u16::from(self.simulation) << 1 | u16::from(self.all_matrix)
    }
}
