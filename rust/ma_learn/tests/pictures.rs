//! PGM pictures, and the rows of a small one worked by hand.

use ma_learn::pgm::{NoPicture, read};
use ma_learn::picture::Picture;
use ma_learn::{job, rows};

/// Width, height and pixels.
fn picture(bytes: &[u8]) -> (usize, usize, Vec<i32>) {
    let picture = read(bytes).expect("a picture");
    let (width, height) = (picture.width(), picture.height());
    let places = (0..height).flat_map(|y| (0..width).map(move |x| (x, y)));
    (
        width,
        height,
        places.map(|(x, y)| picture.at(x, y)).collect(),
    )
}

fn wrong(bytes: &[u8]) -> NoPicture {
    read(bytes).err().expect("no picture")
}

#[test]
fn binary_and_plain() {
    let expected = (3, 2, vec![0, 10, 32, 35, 13, 255]);
    assert_eq!(picture(b"P5 3 2 255\n\0\n #\r\xff"), expected);
    assert_eq!(picture(b"P5 3 2 255\n\0\n #\r\xff\n"), expected);
    assert_eq!(picture(b"P2\n3 2\n255\n0 10 32\n35 13 255\n"), expected);
    assert_eq!(picture(b"P2 3 2 255 0 10 32 35 13 255"), expected);
    assert_eq!(picture(b"P5\n1 1\n1\n\x01"), (1, 1, vec![1]));
}

#[test]
fn comments() {
    let expected = (2, 1, vec![7, 9]);
    assert_eq!(
        picture(b"P5 # a sheet\n# 9 9\n2#wide\n 1\r# high\r\n255\n\x07\x09"),
        expected
    );
    assert_eq!(picture(b"P2\n#\n2 1 # size\n9\n7 # seven\n9"), expected);
}

#[test]
fn sixteen_bits() {
    let expected = (2, 1, vec![256, 65_535]);
    assert_eq!(picture(b"P5 2 1 65535\n\x01\x00\xff\xff"), expected);
    assert_eq!(picture(b"P2 2 1 65535 256 65535"), expected);
    assert_eq!(
        picture(b"P5 2 1 256\n\x01\x00\x00\x02"),
        (2, 1, vec![256, 2])
    );
}

#[test]
fn bad_headers() {
    for bytes in [
        &b""[..],
        b"P6 1 1 255\n\0\0\0",
        b"P51 1 255\n\0",
        b"\x89PNG\r\n",
        b"# P5 1 1 255",
    ] {
        assert_eq!(wrong(bytes), NoPicture::Magic);
    }
    assert_eq!(wrong(b"P5"), NoPicture::Missing("width"));
    assert_eq!(wrong(b"P5 3 # 2"), NoPicture::Missing("height"));
    assert_eq!(wrong(b"P5 3 2"), NoPicture::Missing("largest grey"));
    assert_eq!(wrong(b"P5 wide 2 255\n"), NoPicture::NoNumber("width"));
    assert_eq!(wrong(b"P5 3 -2 255\n"), NoPicture::NoNumber("height"));
    assert_eq!(
        wrong(b"P5 3 2 4294967296\n"),
        NoPicture::NoNumber("largest grey")
    );
    assert_eq!(
        wrong(b"P5 0 2 255\n"),
        NoPicture::Size {
            width: 0,
            height: 2
        }
    );
    assert_eq!(wrong(b"P5 3 2 0\n"), NoPicture::Maxval(0));
    assert_eq!(wrong(b"P5 3 2 65536\n"), NoPicture::Maxval(65_536));
}

#[test]
fn bad_pixels() {
    let cut = |pixels, found| NoPicture::CutShort { pixels, found };
    assert_eq!(wrong(b"P5 3 2 255\n12345"), cut(6, 5));
    assert_eq!(wrong(b"P5 3 2 255"), cut(6, 0));
    assert_eq!(wrong(b"P5 1 2 256\n\x01\x00\x01"), cut(2, 1));
    assert_eq!(wrong(b"P2 3 2 255 1 2 3"), cut(6, 3));
    assert_eq!(
        wrong(b"P5 4294967295 4294967295 255\n"),
        cut(4_294_967_295 * 4_294_967_295, 0)
    );
    assert_eq!(wrong(b"P2 2 1 255 1 2.5"), NoPicture::NoGrey { pixel: 1 });
    assert_eq!(
        wrong(b"P2 2 1 15 15 16"),
        NoPicture::Above {
            pixel: 1,
            grey: 16,
            maxval: 15
        }
    );
    assert_eq!(
        wrong(b"P5 2 1 15\n\x0f\x10"),
        NoPicture::Above {
            pixel: 1,
            grey: 16,
            maxval: 15
        }
    );
    assert_eq!(wrong(b"P5 1 1 255\n12"), NoPicture::LeftOver { bytes: 1 });
    assert_eq!(wrong(b"P2 1 1 255 1 2"), NoPicture::LeftOver { bytes: 1 });
}

/// 3 7 2, 8 1 6, 4 9 5.
fn three_by_three() -> Picture {
    Picture::new(3, vec![3, 7, 2, 8, 1, 6, 4, 9, 5])
}

/// Properties 2 to 15 and tokens of a pixel; the other properties must be 0, and the residual its value.
fn row(pixel: usize) -> (Vec<i32>, Vec<u8>) {
    let rows = rows::of_lines(&three_by_three(), &[0, 1, 2]);
    let properties = &rows.properties[24 * pixel..24 * (pixel + 1)];
    assert_eq!(
        (&properties[..2], &properties[16..]),
        (&[0; 2][..], &[0; 8][..])
    );
    assert_eq!(rows.residuals, [3, 7, 2, 8, 1, 6, 4, 9, 5]);
    (
        properties[2..16].to_vec(),
        rows.tokens[14 * pixel..14 * (pixel + 1)].to_vec(),
    )
}

/// Nothing lies around the first pixel: every neighbour is 0, and every predictor says so.
#[test]
fn first_pixel() {
    let (properties, tokens) = row(0);
    assert_eq!(properties, [0; 14]);
    assert_eq!(tokens, [6; 14]);
}

/// In the first line every neighbour is W = 3. The weighted predictor missed the 3 by 24 eighths below; held between
/// its neighbours it says 3. Residual 4, packed 8, or 7, packed 14.
#[test]
fn second_pixel() {
    let (properties, tokens) = row(1);
    assert_eq!(properties, [0, 1, 3, 3, 3, 3, 3, 3, 0, 0, 0, 0, 0, -24]);
    assert_eq!(tokens, [14, 8, 8, 8, 8, 8, 8, 8, 8, 8, 8, 8, 8, 8]);
}

/// In the first column W is N = 3; NE is 7 and NEE 2. Average4 is (6x3 - 2x3 + 7x3 + 3 + 2 + 3x7 + 8) / 16 = 4.
/// Weighted: errors in eighths N -24, NE -32; guesses 56, 52, 39, 42 with weights 4, 5, 4, 4 give (815 x 986895) >> 24
/// = 47 eighths, 6. The residuals of 8 are 8, 5, 2, 1, 3 and 4; 8 is packed 16, which has token 16.
#[test]
fn first_column() {
    let (properties, tokens) = row(3);
    assert_eq!(properties, [1, 0, 3, 3, 3, 3, 3, 3, 0, 0, -4, 0, 0, -32]);
    assert_eq!(tokens, [16, 10, 10, 10, 10, 10, 4, 2, 10, 10, 10, 10, 6, 8]);
}

/// W 8, N 7, NW 3, NE 2; past the edges NN = N, WW = W, NEE = NE. The gradient is 12 and was 3 one pixel before; Select
/// takes W, 4 away from it against 5. Averages 7, 5, 5, 4 and 108 / 16 = 6. Weighted: errors W -17, N -32, NW -24,
/// NE 40; guesses 24, 61, 87, 60 with weights 7, 6, 6, 6 give (1427 x 671088) >> 24 = 57 eighths, 7; W, N and NW agree,
/// so it is not held. The residuals of 1 are below 0, but for the first.
#[test]
fn middle_pixel() {
    let (properties, tokens) = row(4);
    assert_eq!(properties, [1, 1, 7, 8, 7, 8, 5, 12, 5, -4, 5, 0, 0, 40]);
    assert_eq!(tokens, [2, 13, 11, 11, 13, 13, 11, 1, 3, 13, 7, 7, 5, 9]);
}

/// W 9, N 6, NW 1, NE = N at the edge, NN 2, WW 4. The gradient is 14 and was 4 + 1 - 8 = -3 one pixel before.
#[test]
fn last_pixel() {
    let (properties, tokens) = row(8);
    assert_eq!(properties[..13], [2, 2, 6, 9, 6, 9, 12, 14, 8, -5, 0, 4, 5]);
    assert_eq!(tokens[..6], [10, 7, 1, 3, 7, 7]);
}

#[test]
fn lines_of_a_large_picture() {
    let lines = |width: usize, height: usize, most| {
        job::lines_taken(&Picture::new(width, vec![0; width * height]), most)
    };
    assert_eq!(lines(3, 5, 65_536), Ok(vec![0, 1, 2, 3, 4]));
    assert_eq!(lines(3, 5, 15), Ok(vec![0, 1, 2, 3, 4]));
    assert_eq!(lines(3, 5, 14), Ok(vec![0, 1, 2, 3]));
    assert_eq!(lines(3, 5, 11), Ok(vec![0, 1, 3]));
    assert_eq!(
        lines(3, 5, 2),
        Err(job::NoJob::WideLine { width: 3, most: 2 })
    );
    let refusal = ostrovuc::Refusal::Rows;
    assert_eq!(lines(1, 65_537, 65_536), Err(job::NoJob::Lines(refusal)));
}

/// Rows of some lines are what they are among all.
#[test]
fn some_lines() {
    let all = rows::of_lines(&three_by_three(), &[0, 1, 2]);
    let some = rows::of_lines(&three_by_three(), &[0, 2]);
    assert_eq!(some.residuals, [3, 7, 2, 4, 9, 5]);
    assert_eq!(some.properties[72..], all.properties[144..]);
    assert_eq!(some.tokens[42..], all.tokens[84..]);
}
