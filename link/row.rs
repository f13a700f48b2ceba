// Seals a flight row from Rust with proof of origin, opens it, sees that a damaged one is declined, and computes a CMAC.
type Call = unsafe extern "C" fn(*const u8, usize, *const u8, usize, *const u8, usize, *mut u8, usize) -> usize;

unsafe extern "C" {
    fn vanhseak_speck128_seal_with_proof(bundle: *const u8, bundle_len: usize, nonce: *const u8, nonce_len: usize, ad: *const u8, ad_len: usize, message: *mut u8, message_len: usize) -> usize;
    fn vanhseak_speck128_open_with_proof(bundle: *const u8, bundle_len: usize, nonce: *const u8, nonce_len: usize, ad: *const u8, ad_len: usize, message: *mut u8, message_len: usize) -> usize;
    fn vanhseak_aes128_cmac(key: *const u8, key_len: usize, message: *const u8, message_len: usize, code: &mut [u8; 16]) -> usize;
}

// 0, or the number of a refusal. The slices don't overlap, since one of them is borrowed for writing.
fn call(f: Call, bundle: &[u8], nonce: &[u8], message: &mut [u8]) -> usize {
    let none: &[u8] = &[];
    unsafe { f(bundle.as_ptr(), bundle.len(), nonce.as_ptr(), nonce.len(), none.as_ptr(), 0, message.as_mut_ptr(), message.len()) }
}

fn cmac(key: &[u8], message: &[u8], code: &mut [u8; 16]) -> usize {
    unsafe { vanhseak_aes128_cmac(key.as_ptr(), key.len(), message.as_ptr(), message.len(), code) }
}

fn seal_and_open() {
    let bundle: Vec<u8> = (0..48).collect();
    let nonce = b"\x03\0\0\0TWR\0\0\0\0\0\0\0\0\0";
    let mut row = b"SVA113 A388 350 E0412 RWY 34L".to_vec();
    row.extend([0; 16]);
    assert_eq!(call(vanhseak_speck128_seal_with_proof, &bundle, nonce, &mut row), 0);
    let mut damaged = row.clone();
    assert_eq!(call(vanhseak_speck128_open_with_proof, &bundle, nonce, &mut row), 0);
    println!("opened {}", String::from_utf8_lossy(&row[..row.len() - 16]));
    damaged[0] ^= 1;
    let refusal = call(vanhseak_speck128_open_with_proof, &bundle, nonce, &mut damaged);
    let zeroed = damaged.iter().all(|b| *b == 0);
    println!("one bit turned over: declined with {refusal}, and all zero: {zeroed}");
    assert!(refusal == 10 && zeroed);
}

// The first example of SP 800-38B for AES-128: the empty message.
fn authenticate() {
    let key = 0x2b7e151628aed2a6abf7158809cf4f3c_u128.to_be_bytes();
    let published = 0xbb1d6929e95937287fa37d129b756746_u128;
    let mut code = [0; 16];
    assert_eq!(cmac(&key, &[], &mut code), 0);
    println!("CMAC {:032x}", u128::from_be_bytes(code));
    assert_eq!(u128::from_be_bytes(code), published);
    let refusal = cmac(&key, &[0; 65_537], &mut code);
    println!("a message that is one byte too long: declined with {refusal}");
    assert!(refusal == 6 && u128::from_be_bytes(code) == published);
}

fn main() {
    seal_and_open();
    authenticate();
}
