//! import-bcs on the models of 000 and 001 that are written out there.

mod common;

use common::{on_text, repository, run};

fn imported(name: &str) -> common::Ran {
    run(&["import-bcs", &repository().join("cli/samples/bcs").join(name).display().to_string()])
}

#[test]
fn what_can_be_said_is_accepted() {
    let names = [
        "s3_replication",
        "s5_walk",
        "s5_accelerate",
        "s5_bump",
        "s5_tau",
        "binding",
        "change",
        "channels",
        "clock",
        "diffusion",
        "handshake",
        "sets",
        "surface",
    ];
    for name in names {
        let ran = imported(&format!("{name}.bc"));
        assert_eq!((ran.status, ran.err.as_str()), (0, ""), "{name}");
        let listed = on_text(&["list", "-"], &ran.out);
        assert_eq!(listed.status, 0, "{name}: {}", listed.err);
        assert!(!listed.out.contains("total 0\n"), "{name}");
    }
}

#[test]
fn decimals_become_whole_parts() {
    let text = imported("s3_replication.bc").out;
    for line in [
        "// fire counts 0.001, q counts 0.001",
        "Ori[i,fire,q] = {licensed,0.001*(q*fast)}.{~chr?[i],0.001*fire}.(FL[i] || FR[i])",
        "              + {nlicensed,0.001*(fast*(1000-q))};",
        "Ori[143,37,760] ||",
    ] {
        assert!(text.lines().any(|said| said == line), "{line}\n{text}");
    }
    // The first origin of figure S3: licensed with the chance 0.522.
    let listed = on_text(&["list", "-", "--csv"], &text);
    let rates: Vec<&str> = listed.out.lines().skip(1).take(2).filter_map(|line| line.rsplit(',').nth(1)).collect();
    assert_eq!(rates, ["52200", "47800"]);
}

#[test]
fn gates_sets_and_conditions_are_turned() {
    let expected = "v = 1.4;\n// p counts 0.01\n\
                    A[x,p] = {c?[8..15 inter 4..9 union 0..2],v*2}\n       \
                    + [x>=1 & p<50] -> {a,0.01*p}\n       \
                    + [x>=1 & p<50 & x!=3] -> {b,0.0025*(p*x)}.A[x*x,p+25];\n\
                    2*A[0,50] ||\nA[2,25];\n";
    assert_eq!(imported("sets.bc").out, expected);
    let network = imported("s1_network.bc");
    assert!(network.out.contains("     + [a==1] -> {@bindAB![0],on_rate};\n"), "{}", network.out);
    assert!(network.status == 1 && network.err.contains("1000*C[0,0,0,0]"), "{}", network.err);
}

#[test]
fn what_cant_be_said_is_named_with_its_line() {
    let bias = imported("s5_bias.bc");
    assert_eq!(bias.status, 1);
    for place in ["7:30", "12:23"] {
        assert!(bias.err.contains(&format!("s5_bias.bc:{place}: 1/3 is no decimal")), "{}", bias.err);
    }
    assert!(bias.out.contains("{@bump?[i+4],0.25}.K2[i]"), "{}", bias.out);
    let faults = [
        ("A[r]={c?[1..r](x),x};A[1];", "1:19: a receive's rate can't use a name that it binds"),
        ("A[]={c?[1..17](x),x};A[];", "1:19: a receive's rate can't use a name that it binds"),
        ("A[]={c?[1 U 3](x),x};A[];", "1:19: a receive's rate can't use a name that it binds"),
        ("A[]={c?[0..1](x),2/x};A[];", "1:18: a division by zero"),
        ("A[x]={a,1/x};A[1];", "1:9: a division by what isn't constant"),
        ("A[x]={a,sqrt(x)};A[1];", "1:9: sqrt can't be said"),
        ("A[x]={c![x],1}.A[x];A[0.5];", "1:7: a value with a point can't stand here"),
        ("A[x]={a,0.00001};A[1];", "1:9: 0.00001 is no decimal"),
        ("A[x]={a,1}.A[x/3.0*1.5];A[1.5];", "1:14: a value has more than 9 decimals, or ever more"),
        ("A[x]=B[x];B[x]={a,1};A[1];", "1:6: B is called where an action has to come first"),
        ("A[x]=[x>1]->({a,1}||{b,1});A[1];", "1:15: processes side by side behind a gate"),
        ("A[x]={c?[0..9\\2 U 3..4 I 4],1};A[1];", "1:7: a union of two sets"),
        ("A[x]={a,1}.B[x];A[1];", "1:12: B isn't defined"),
        ("A[x]={a,y};A[1];", "1:9: y is neither a parameter nor a variable"),
        ("A[x]={a,1}A[1];", "1:11: this is no bcs model: `;` after a definition"),
    ];
    for (text, message) in faults {
        let ran = on_text(&["import-bcs", "-"], text);
        assert_eq!(ran.status, 1, "{text}");
        assert!(ran.err.contains(&format!("standard input:{message}")), "{text}: {}", ran.err);
    }
}

#[test]
fn a_rate_by_a_bound_name_becomes_a_branch_for_each_value() {
    let bias = imported("s5_bias.bc").out;
    for line in ["K1[i] = {@bump?[i+1](x),1}.K1[i]", "      + {@bump?[i+5](x),0.2}.K1[i]"] {
        assert!(bias.lines().any(|said| said == line), "{line}\n{bias}");
    }
    assert!(imported("clock.bc").out.contains("      + {state?[2](s),r*2}.(R[x+1,0] || R[x-1,1]);\n"));
    let text = "n=2;A[i,r]={c?[0..9,i*3-n..i*3](x,y),y*max(1,2)}.A[x,y];A[1,0];";
    let ran = on_text(&["import-bcs", "-"], text);
    let expected = "n = 2;\n\
                    A[i,r] = {c?[0..9,3*i-n](x,y),2*(3*i-n)}.A[x,y]\n       \
                    + {c?[0..9,3*i+1-n](x,y),2*(3*i+1-n)}.A[x,y]\n       \
                    + {c?[0..9,3*i+2-n](x,y),2*(3*i+2-n)}.A[x,y];\nA[1,0];\n";
    assert_eq!((ran.status, ran.out.as_str()), (0, expected), "{}", ran.err);
    // Nine receives one after another, sixteen values each.
    let chain = "A[]=".to_string() + &["{c?[1..16](x),x}"; 9].join(".") + ";A[];";
    let ran = on_text(&["import-bcs", "-"], &chain);
    assert!(ran.status == 1 && ran.err.contains("a branch for each value would be too long"), "{}", ran.err);
}

/// A branch whose call can't be said is left out, and the others stay.
#[test]
fn a_branch_is_left_out_whole() {
    let ran = on_text(&["import-bcs", "-"], "A[x]={a,1}.(A[x]||B[x])+{b,2}.({c,1}.C[]||A[x]);A[1];");
    assert_eq!((ran.status, ran.out.as_str()), (1, "A[x] = {b,2}.({left_out,0} || A[x]);\nA[1];\n"), "{}", ran.err);
}

#[test]
fn long_names_are_shortened() {
    let text = "a_very_long_rate_of_mine=2;A[]={union,a_very_long_rate_of_mine}.A[];A[];";
    let ran = on_text(&["import-bcs", "-"], text);
    assert_eq!(ran.status, 0, "{}", ran.err);
    assert!(ran.out.contains("{union_,a_very_long_rat_}.A[]"), "{}", ran.out);
}
