
// Methods that code.rs of 0.262.0 names and this older file lacks. No constant expression of document 01 reaches one.
impl<'a> InstructionSink<'a> {
    /// Not built.
    pub fn struct_new_desc(&mut self, _: u32) -> &mut Self {
        unreachable!()
    }
    /// Not built.
    pub fn struct_new_default_desc(&mut self, _: u32) -> &mut Self {
        unreachable!()
    }
    /// Not built.
    pub fn resume_throw_ref<T>(&mut self, _: u32, _: T) -> &mut Self {
        unreachable!()
    }
    /// Not built.
    pub fn ref_get_desc(&mut self, _: u32) -> &mut Self {
        unreachable!()
    }
    /// Not built.
    pub fn ref_cast_desc_eq_non_null(&mut self, _: HeapType) -> &mut Self {
        unreachable!()
    }
    /// Not built.
    pub fn ref_cast_desc_eq_nullable(&mut self, _: HeapType) -> &mut Self {
        unreachable!()
    }
    /// Not built.
    pub fn br_on_cast_desc_eq(&mut self, _: u32, _: RefType, _: RefType) -> &mut Self {
        unreachable!()
    }
    /// Not built.
    pub fn br_on_cast_desc_eq_fail(&mut self, _: u32, _: RefType, _: RefType) -> &mut Self {
        unreachable!()
    }
}
