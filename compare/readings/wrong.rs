//! Words and lines that the label desk's form hasn't, each near to one that it has.

#[rustfmt::skip]
pub const VOLTAGES: &[&str] = &[
    "", "-", "+", ".", "e", "+1", "+0", "--1", "- 1", "1-", ".5", "-.5", "5.", "-5.", "5.e1", ".e1", "1..5", "1.2.3",
    "1.-5", "1.+5", "00", "01", "-01", "-00", "00.5", "01.5", "000000000000001", "1e", "1e-", "-1e", "1.5e", "1e+1",
    "1e+0", "1E1", "1e01", "1e-01", "1e00", "1e-00", "1e1.0", "1e1e1", "1ee1", "1e--1", "1e1-", "e5", "-e5", "0e",
    "1234567890123456", "1000000000000000", "0.000000000000000", "1.000000000000000", "0.123456789012345",
    "-1234567890123456", "1234567890123456e-1", "12345678.12345678", "100000000000000.0", "1e23", "-1e23", "0e23",
    "1e-23", "0e-23", "1.0e24", "1.5e24", "1.5e-22", "0.0e-22", "1.00e-21", "1.23456789012345e37",
    "1.23456789012345e-9", "1e99", "1e100", "1e-100", "1e308", "1e256", "1e278", "1e-234", "1e65536", "1e65558",
    "1e4294967296", "1e4294967318", "1e18446744073709551616", "1e-18446744073709551594", "1e9223372036854775807",
    "1e-9223372036854775808", "1.5e-9223372036854775807", "1.25e-9223372036854775807",
    "1e340282366920938463463374607431768211456", "NaN", "NAN", "Nan", "-nan", "+nan", "nan0", "nan1", "nana", "na",
    "nann", "nan(1)", "snan", "Inf", "INF", "+inf", "--inf", "in", "inff", "infinity", "-infinity", "inf0", "-Inf",
    "-in", "1inf", "inf.0", "infe1", "0x10", "0x1p3", "1_000", "1f64", "1.0f", "1d5", "1 ", "1;0", "1/2", "1'000", "1V",
    "one", "1\t", "1\r", "1\0", "\01", "1\u{e9}", "\u{661}", "\u{2212}1", "~1", "1:", "1=1", "a", "1a", "1.a", "1ea",
    "1e1a",
];

#[rustfmt::skip]
pub const LIMITS: &[&str] = &[
    "", "-", "+", "+0", "+1", "--1", "-+1", "1-", "00", "01", "-00", "-01", "0000000001", "2147483648", "2147483649",
    "-2147483649", "-2147483650", "4294967295", "4294967296", "-4294967296", "-4294967295", "9223372036854775808",
    "-9223372036854775808", "18446744073709551616", "-18446744073709551616", "18446744073709551617",
    "340282366920938463463374607431768211456", "99999999999", "21474836470", "1.0", "-1.5", ".5", "5.", "1e0", "1e1",
    "nan", "inf", "-inf", "0x1", "1_0", "1 ", "a", "1a", "1\r", "1\0", "1\t", "1\u{e9}", "-0.0", "0e0", "~1", "1/",
    "1:",
];

#[rustfmt::skip]
pub const COUNTERS: &[&str] = &[
    "", "-", "+", "-0", "-1", "-2", "+0", "+1", "00", "01", "0000000001", "4294967296", "4294967297", "42949672950",
    "5000000000", "9999999999", "10000000000", "8589934592", "-2147483648", "-4294967295", "9223372036854775808",
    "18446744073709551615", "18446744073709551616", "18446744073709551617", "340282366920938463463374607431768211456",
    "1.0", "1.", ".5", "1e0", "1e3", "nan", "inf", "-inf", "0x1", "1_0", "1 ", "a", "1a", "1\r", "1\0", "1\t",
    "1\u{e9}", "0e0", "1/", "1:", "~",
];

/// Lines wrong in their keys, blanks, commas or in how many numbers they have.
#[rustfmt::skip]
pub const LINES: &[&[u8]] = &[
    b"", b" ", b"  ", b".", b",", b"=", b"-", b"T", b"F", b"U", b"answer=19", b"\0", b"\r", b"\t", b"\xff",
    b"volts=1,2", b"ticks=1,2", b"atleast=1", b"atleast=1 ", b" volts=1,2", b"= =,", b"atleast= volts=,",
    b"between=, volts=,", b"volts=1,2 atleast=1", b"ticks=1,2 atmost=1", b"atleast=1 atmost=1",
    b"atleast=1 atmost=1 volts=1,2", b"atleast=1  volts=1,2", b"atleast=1volts=1,2", b" atleast=1 volts=1,2",
    b"atleast=1 volts=1,2 ", b"atleast=1 volts=1,2\r", b"atleast=1 volts=1,2\0", b"\0atleast=1 volts=1,2",
    b"atleast=1\0volts=1,2", b"atleast=1\tvolts=1,2", b"atleast=1\rvolts=1,2", b"atleast=1\x0bvolts=1,2",
    b"atleast=1\xa0volts=1,2", b"\xef\xbb\xbfatleast=1 volts=1,2", b"atleast=1\xc2\xa0volts=1,2",
    b"atleast =1 volts=1,2", b"atleast= 1 volts=1,2", b"atleast=1 volts =1,2", b"atleast=1 volts= 1,2",
    b"atleast=1 volts=1, 2", b"atleast=1 volts=1 ,2", b"atleast=1 volts=1 2", b"atleast=1 volts=1;2",
    b"atleast=1 volts=12", b"atleast=1 volts=1,2,", b"atleast=1 volts=,1,2", b"atleast=1 volts=1,,2",
    b"atleast=1 volts=1,2,3", b"atleast=1 volts=1", b"atleast=1 volts=", b"atleast=1 volts", b"atleast=1 1,2",
    b"atleast=1 =1,2", b"atleast=1,2 volts=1,2", b"atleast=1, volts=1,2", b"atleast=,1 volts=1,2",
    b"atmost=1,2 volts=1,2", b"atmost= volts=1,2", b"atleast volts=1,2", b"atleast= volts=1,2", b"=1 volts=1,2",
    b"1 volts=1,2", b"between=1 volts=1,2", b"between=1, volts=1,2", b"between=,1 volts=1,2",
    b"between=1,2,3 volts=1,2", b"between=1,,2 volts=1,2", b"between=1 2 volts=1,2", b"between=1, 2 volts=1,2",
    b"between=1;2 volts=1,2", b"between=12 volts=1,2", b"between= volts=1,2", b"between=2,1 volts=1",
    b"between=2,1 volts=1,+2", b"between=nan,1 volts=1,01", b"atleast=nan volts=1,", b"atleast=nan ticks=1,2",
    b"atmost=inf ticks=1,2", b"between=2,1 ticks=1,-1", b"between=2,1 ticks=1", b"between=2,1 ticks=1,2,3",
    b"between=1.0,2 ticks=1,2", b"Atleast=1 volts=1,2", b"ATLEAST=1 volts=1,2", b"atLeast=1 volts=1,2",
    b"least=1 volts=1,2", b"atleas=1 volts=1,2", b"atleastt=1 volts=1,2", b"at least=1 volts=1,2",
    b"at_least=1 volts=1,2", b"atmos=1 volts=1,2", b"most=1 volts=1,2", b"atmostt=1 volts=1,2", b"betwee=1,2 volts=1,2",
    b"betweenn=1,2 volts=1,2", b"Between=1,2 volts=1,2", b"within=1,2 volts=1,2", b"equal=1 volts=1,2",
    b"atleast:1 volts=1,2", b"atleast==1 volts=1,2", b"atleast=1 volts==1,2", b"atleast=1 volts:1,2",
    b"atleast=1 Volts=1,2", b"atleast=1 volt=1,2", b"atleast=1 voltss=1,2", b"atleast=1 tick=1,2",
    b"atleast=1 ticks:1,2", b"atleast=1 Ticks=1,2", b"atleast=1 ticks=1", b"atleast=1 ticks=12",
    b"atleast=1 ticks=1,2,3", b"atleast=1 ticks=1,2 ", b"atleast=1  ticks=1,2", b"atleast=1ticks=1,2",
    b"atleast=1 ticks=1,2\r", b"atleast=1 ticks=1, 2", b"atleast=1 volts=1,2ticks=1,2",
    b"atleast=1 volts=1,2 ticks=1,2", b"atleast=1 volts=1,2 volts=1,2", b"atleast=1 volts=1,2#",
    b"#atleast=1 volts=1,2",
];
