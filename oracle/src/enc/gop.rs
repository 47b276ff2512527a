//! The original's `decide_normal_gop`, its text unchanged, on a context that holds the fields which it reads and writes. Its
//! lookup in the input queue finds a queue of one empty picture.

use super::tbl::tbl_slice_depth;
use super::{FRM_DEPTH_0, FRM_DEPTH_1, FRM_DEPTH_2, PIC_IDX_ORIG};
use crate::api::SliceType;
use crate::def::{EvcPoc, EvcSps};
use crate::util::evc_poc_derivation;
use std::rc::Rc;

#[derive(Default)]
struct EvcePicOrg {
    pic: Rc<()>,
}

struct EncoderConfig {
    max_key_frame_interval: usize,
    disable_hgop: bool,
    inter_slice_type: SliceType,
}

pub struct EvceCtx {
    param: EncoderConfig,
    sps: EvcSps,
    gop_size: usize,
    pico_buf: Vec<EvcePicOrg>,
    pico_idx: usize,
    pico_max_cnt: usize,
    pic: [Option<Rc<()>>; PIC_IDX_ORIG + 1],
    pub slice_type: SliceType,
    pub slice_depth: u8,
    pub slice_ref_flag: bool,
    pub poc: EvcPoc,
}

impl EvceCtx {
    pub fn new(
        gop_size: usize,
        i_period: usize,
        inter_slice_type: SliceType,
        hierarchy: bool,
        poc: EvcPoc,
    ) -> EvceCtx {
        // As `set_sps` has it.
        let log2_sub_gop_length = ((gop_size as f32).log2() + 0.5f32) as u8;
        EvceCtx {
            param: EncoderConfig { max_key_frame_interval: i_period, disable_hgop: !hierarchy, inter_slice_type },
            sps: EvcSps { log2_sub_gop_length, ..EvcSps::default() },
            gop_size,
            pico_buf: vec![EvcePicOrg::default()],
            pico_idx: 0,
            pico_max_cnt: 1,
            pic: Default::default(),
            slice_type: SliceType::EVC_ST_UNKNOWN,
            slice_depth: 0,
            slice_ref_flag: false,
            poc,
        }
    }

    pub fn plan(&mut self, pic_imcnt: usize) {
        self.decide_normal_gop(pic_imcnt);
    }
}

include!(concat!(env!("OUT_DIR"), "/gop.rs"));
