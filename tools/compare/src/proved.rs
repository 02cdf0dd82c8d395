//! The proved library behind safe functions.

use second::Refusal;

/// What both functions take: the input's address and length, the buffer's, and the value's address.
type Exported = unsafe extern "C" fn(*const u8, usize, *mut u8, usize, *mut u64) -> u32;

extern "C" {
    fn velvetshelf_to_text(
        message: *const u8,
        message_length: usize,
        text: *mut u8,
        text_length: usize,
        value: *mut u64,
    ) -> u32;

    fn velvetshelf_to_wire(
        text: *const u8,
        text_length: usize,
        message: *mut u8,
        message_length: usize,
        value: *mut u64,
    ) -> u32;
}

/// The text's length, or the refusal. The buffer is lent for the call.
pub fn to_text(message: &[u8], text: &mut [u8]) -> Result<usize, Refusal> {
    call(velvetshelf_to_text, message, text)
}

/// The message's length, or the refusal. The buffer is lent for the call.
pub fn to_wire(text: &[u8], message: &mut [u8]) -> Result<usize, Refusal> {
    call(velvetshelf_to_wire, text, message)
}

fn call(function: Exported, input: &[u8], buffer: &mut [u8]) -> Result<usize, Refusal> {
    let mut value = 0;
    // Each slice is passed as its address and its length, the value by its address; all three live through the call.
    let number = unsafe {
        function(
            input.as_ptr(),
            input.len(),
            buffer.as_mut_ptr(),
            buffer.len(),
            &mut value,
        )
    };
    match number {
        0 => Ok(value as usize),
        _ => Err(Refusal {
            number,
            place: value,
        }),
    }
}
