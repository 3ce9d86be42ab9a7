//! Words of requests, read one by one.

use crate::run::*;

const TITLE: &str = "word  value  request               what the value says\n";

/// Checks the lines below the title. Nothing is read.
fn read(words: &[&str], status: i32, lines: &str) {
    let arguments = [&["requests"], words].concat();
    let output = format!("{TITLE}{lines}");
    let ran = Folder::new().run(&arguments, b"FFFF");
    expect(ran, status, &output, "");
}

#[test]
fn words_alone_and_shared() {
    read(
        &["0000", "2000", "2001", "2405", "3800"],
        0,
        "\
0000      0  HNOP
2000      0  HSET_Bias or HRESYNC
2001      1  HSET_Bias
2405      5  HSET_I_Lamp_Spect_T or HSET_I_Lamp_Spect_S or HSET_I_Lamp_Radio
3800      0  HINIT_Pix_Map_Upld or HINIT_Pix_Map_Dnld
",
    );
}

#[test]
fn values_with_fields() {
    read(
        &[
            "4BFF", "4800", "488C", "6800", "6801", "6802", "6803", "7C00", "7C01",
        ],
        0,
        "\
4BFF   1023  HSET_Cover            open, one wave, Hall sensors enabled, steps 127
4800      0  HSET_Cover            close, half wave, Hall sensors disabled, steps 0
488C    140  HSET_Cover            close, half wave, Hall sensors enabled, steps 17
6800      0  HSET_PEM_Mode         observation, 8 orders
6801      1  HSET_PEM_Mode         observation, all matrix
6802      2  HSET_PEM_Mode         simulation, 8 orders
6803      3  HSET_PEM_Mode         simulation, all matrix
7C00      0  HSET_Shutter_Status   off
7C01      1  HSET_Shutter_Status   on
",
    );
}

#[test]
fn switches() {
    read(
        &[
            "4401", "4400", "6C01", "6C00", "7001", "7000", "7401", "7402", "7404", "7400", "7801",
            "7800",
        ],
        0,
        "\
4401      1  HSET_Det/On           on
4400      0  HSET_Det/Off          off
6C01      1  HSET_Shutter/On       on, closed
6C00      0  HSET_Shutter/Off      off, open
7001      1  HSET_FPA_Htr/On       on
7000      0  HSET_FPA_Htr/Off      off
7401      1  HSET_Lamp_Spect_T/On  on
7402      2  HSET_Lamp_Spect_S/On  on
7404      4  HSET_Lamp_Radio/On    on
7400      0  HSET_Cal/Off          off, all three lamps
7801      1  HSET_Det_Temp/On      on
7800      0  HSET_Det_Temp/Off     off
",
    );
}

#[test]
fn a_refused_word_has_status_1() {
    read(
        &["6804", "7403", "FFFF", "53ff", "53Ff"],
        1,
        "\
6804      -  refused 44: the request's value is out of range
7403      -  refused 44: the request's value is out of range
FFFF      -  refused 43: no such request
53FF   1023  HSET_Int_Num1
53FF   1023  HSET_Int_Num1
",
    );
    let stopped = Folder::new().shell("\"$0\" requests FFFF > lines && cat lines");
    expect(stopped, 1, "", "");
}
