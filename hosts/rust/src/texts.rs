//! Texts that the library writes into a buffer.

// There is too little room.
const TOO_SHORT: u32 = 102;

/// Asks for a text until there is room for all of it.
pub(crate) fn told(ask: impl FnMut(&mut [u8], &mut usize) -> u32) -> Result<String, u32> {
    let out = told_bytes(ask)?;
    Ok(String::from_utf8(out)
        .unwrap_or_else(|found| String::from_utf8_lossy(found.as_bytes()).into_owned()))
}

/// Asks for bytes until there is room for all of them.
pub(crate) fn told_bytes(
    mut ask: impl FnMut(&mut [u8], &mut usize) -> u32,
) -> Result<Vec<u8>, u32> {
    let mut out = vec![0u8; 256];
    loop {
        let mut length = 0;
        match ask(&mut out, &mut length) {
            0 => {
                out.truncate(length);
                return Ok(out);
            }
            TOO_SHORT => out.resize(length, 0),
            code => return Err(code),
        }
    }
}
