//! The kit's start as an object for the linker: `start.S`, assembled by the compiler that is there anyway. Nothing of
//! `core` is needed, so that it needn't be built first.
#![no_core]
#![feature(no_core, lang_items, rustc_attrs)]
#![allow(internal_features)]

#[lang = "pointee_sized"]
trait PointeeSized {}
#[lang = "meta_sized"]
trait MetaSized: PointeeSized {}
#[lang = "sized"]
trait Sized: MetaSized {}

#[rustc_builtin_macro]
macro_rules! global_asm {
    () => {};
}
#[rustc_builtin_macro]
macro_rules! include_str {
    () => {};
}

global_asm!(include_str!("start.S"));
