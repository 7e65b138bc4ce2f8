//! Faults under question 5, each at the first token that no fitting text could have there.

mod common;

use common::*;

#[test]
fn lines() {
    refused(5, "¶");
    refused(5, "  // nothing\n ¶");
    refused(5, "¶=");
    refused(5, "¶3*A[];");
    refused(5, "x¶");
    refused(5, "x¶;");
    refused(5, "x=¶;");
    refused(5, "x=¶y;");
    refused(5, "x=-¶-1;");
    refused(5, "x=1¶.");
    refused(5, "x=1.5¶.5");
    refused(5, "x=1¶+");
    refused(5, "x=1;¶");
    // No definition yet: a `[` begins one.
    refused(5, "x=1;¶3*A[];");
    refused(5, "x=1;A[¶1];");
    refused(5, "x=1;A[¶-1];");
    refused(5, "x=1;A[]¶;");
    refused(5, "x=1;A[]¶||");
    refused(5, "A[x]¶;");
    refused(5, "A[x,¶]");
    refused(5, "A[x,¶1]");
    refused(5, "A[x ¶y]");
    refused(5, "A[]=¶;");
    refused(5, "A[]=¶B[];");
    refused(5, "A[]=¶({go,1});");
    // After a definition: a definition or the system line, no variable.
    refused(5, "A[]={go,1};¶");
    refused(5, "A[]={go,1};¶;");
    refused(5, "A[]={go,1};x¶=1;");
    refused(5, "A[]={go,1};¶-1*A[];");
    refused(5, "A[]={go,1};¶1.0*A[];");
    refused(5, "A[]={go,1};1 ¶A[];");
    refused(5, "A[]={go,1};1*¶1*A[];");
    refused(5, "A[]={go,1};A[¶1.5];");
    refused(5, "A[]={go,1};A[-¶x];");
    refused(5, "A[]={go,1};A[1,¶];");
    refused(5, "A[]={go,1};A[1,¶x];");
    refused(5, "A[]={go,1};A[1¶+1];");
    refused(5, "A[]={go,1};A[1]¶={go,1};");
    refused(5, "A[]={go,1};A[x]¶;");
    refused(5, "A[]={go,1};A[x,¶1];");
    refused(5, "A[]={go,1};A[x¶+1];");
    refused(5, "A[]={go,1};A[¶(];");
    refused(5, "A[]={go,1};1*A[]¶={go,1};");
    refused(5, "A[]={go,1};1*A[¶x];");
    refused(5, "A[]={go,1};A[]||A[]¶={go,1};");
    refused(5, "A[]={go,1};A[]||A[¶x]");
    refused(5, "A[]={go,1};A[]||¶;");
    refused(5, "A[]={go,1};A[]||3*A[-1]¶");
    refused(5, "A[]={go,1};A[]¶|A[];");
    refused(5, "A[]={go,1};A[]¶");
    refused(5, "A[]={go,1};A[];¶;");
    refused(5, "A[]={go,1};A[];¶A[];");
    refused(5, "A[]={go,1};A[] // end\n ¶");
    accepted("A[]={go,1};A[];// A[]");
    accepted("A[]={go,1};B[]={go,1};A[];");
    accepted("A[x]={go,1};1*A[-1]||A[2]||0*A[- 3];");
    accepted("x=1;y=-1.5;z=- 2;A[]={go,1};A[];");
}

#[test]
fn bodies() {
    refused(5, "A[]={go,1}¶{go,1};A[];");
    refused(5, "A[]={go,1}||¶;A[];");
    refused(5, "A[]={go,1}||¶B[];A[];");
    refused(5, "A[]={go,1}+¶B[];A[];");
    refused(5, "A[]={go,1}.¶;A[];");
    refused(5, "A[]={go,1}.¶5;A[];");
    refused(5, "A[]={go,1}¶..B[];A[];");
    refused(5, "A[]={go,1}.B¶;A[];");
    refused(5, "A[]={go,1}.B[¶,];A[];");
    refused(5, "A[]={go,1}.B[1,¶];A[];");
    refused(5, "A[]={go,1}.B[1¶..2];A[];");
    refused(5, "A[]={go,1}.B[]¶.B[];A[];");
    refused(5, "A[]={go,1}.B[]¶[];A[];");
    refused(5, "A[]={go,1}.(¶);A[];");
    refused(5, "A[]={go,1}.(B[]¶+B[]);A[];");
    refused(5, "A[]={go,1}.((B[])¶+{go,1});A[];");
    refused(5, "A[]={go,1}.(B[]||¶);A[];");
    refused(5, "A[]={go,1}.(B[])¶);A[];");
    refused(5, "A[]={go,1}.(B[])¶.C[];A[];");
    refused(5, "A[]={go,1}.({go,1}+¶B[]);A[];");
    refused(5, "A[]={go,1}+{go,1}¶);A[];");
    refused(5, "A[]=[1<2]¶{go,1};A[];");
    refused(5, "A[]=[1<2]->¶({go,1});A[];");
    refused(5, "A[]=[1<2]->¶B[];A[];");
    refused(5, "A[]=[1<2]->¶[1<2]->{go,1};A[];");
    accepted("A[]={go,1}+{a,1}.{b,1}.({c,1}+{d,1}||(A[]||(A[])))+[1<2]->{e,1}.[1<2]->{f,1}.A[]||{g,1};A[];");
    accepted("A[]={go,1}.({go,1}.(A[])+{go,1}.A[]+{go,1});A[];");
}

#[test]
fn actions() {
    refused(5, "A[]={¶,1};A[];");
    refused(5, "A[]={go¶};A[];");
    refused(5, "A[]={go,¶};A[];");
    refused(5, "A[]={go,1,¶};A[];");
    refused(5, "A[]={(go),1¶};A[];");
    refused(5, "A[]={go+1,1¶};A[];");
    refused(5, "A[]={1,1¶};A[];");
    refused(5, "A[]={¶1.5![1],1};A[];");
    refused(5, "A[]={go¶[1],1};A[];");
    refused(5, "A[]={go¶(1),1};A[];");
    refused(5, "A[]={go¶..1,1};A[];");
    refused(5, "A[]={go ¶go,1};A[];");
    refused(5, "A[]={@go,1¶};A[];");
    refused(5, "A[]={@go¶#[1],1};A[];");
    refused(5, "A[]={@¶@go![1],1};A[];");
    refused(5, "A[]={@¶~go?[1],1};A[];");
    refused(5, "A[]={~go,1¶};A[];");
    refused(5, "A[]={~go¶![1],1};A[];");
    refused(5, "A[]={~¶@go?[1],1};A[];");
    refused(5, "A[]={~go?[1]¶(x),1};A[];");
    refused(5, "A[]={c!¶,1};A[];");
    refused(5, "A[]={c¶!=1,1};A[];");
    refused(5, "A[]={c![¶],1};A[];");
    refused(5, "A[]={c![1,2¶,3],1};A[];");
    refused(5, "A[]={c![1¶..2],1};A[];");
    refused(5, "A[]={c![1]¶(x),1};A[];");
    refused(5, "A[]={c#[1]¶(x),1};A[];");
    refused(5, "A[]={c?[¶],1};A[];");
    refused(5, "A[]={c?[1,2¶,3],1};A[];");
    refused(5, "A[]={c?[1](¶),1};A[];");
    refused(5, "A[]={c?[1](¶1),1};A[];");
    refused(5, "A[]={c?[1](x,¶),1};A[];");
    refused(5, "A[]={c?[1](x¶;");
    refused(5, "A[]={c,d![1]¶};A[];");
    refused(5, "A[]={c![1],d¶![1],1};A[];");
    accepted(
        "A[]={c![1],1}+{c#[1,2],1}+{c?[1],1}+{c?[1,2](x,y),1}+{~c?[1],1}+{@c![1],1}+{@c?[1],1}+{@c?[1](x),1};A[];",
    );
    accepted("A[]={1+2![1],1}+{-1![1],1}+{(3)![1],1}+{abs(-3)?[1],1}+{max(1,2)#[1],1};A[];");
}

/// A wait and a channel of several items that begin alike: the place is the first token that neither could have.
#[test]
fn wait_or_channel() {
    // The wait is no rate any more, and a channel doesn't end with `}`.
    refused(5, "A[]={a,1*2*3¶};A[];");
    refused(5, "A[]={a,1+2¶};A[];");
    refused(5, "A[]={a,(b)¶};A[];");
    refused(5, "A[]={a,1,2¶};A[];");
    refused(5, "A[]={1,a¶};A[];");
    refused(5, "A[]={a,b-c¶};A[];");
    refused(5, "A[]={a,1/2¶};A[];");
    refused(5, "A[]={a,b*c/d¶};A[];");
    refused(5, "A[]={a,b*c,d¶};A[];");
    refused(5, "A[]={a,b,c¶};A[];");
    refused(5, "A[]={a,abs(b)¶};A[];");
    refused(5, "A[]={a,max(b,c)¶};A[];");
    refused(5, "A[]={a,(b)*c¶};A[];");
    // The second item has a point: it is a rate alone.
    refused(5, "A[]={a,1.5¶,2};A[];");
    refused(5, "A[]={a,1.5¶![1],1};A[];");
    refused(5, "A[]={a,-1.5¶,2};A[];");
    refused(5, "A[]={a,1.5¶+1};A[];");
    refused(5, "A[]={a,1.5*b¶*c};A[];");
    refused(5, "A[]={a,1.5*b¶,c![1],1};A[];");
    refused(5, "A[]={a,1.5*b¶#[1],1};A[];");
    // It is a channel already: no point in an item.
    refused(5, "A[]={a,b,¶1.5![1],1};A[];");
    refused(5, "A[]={1,¶1.5};A[];");
    refused(5, "A[]={a,b*¶1.5};A[];");
    refused(5, "A[]={a,b+¶1.5};A[];");
    // A fourth item.
    refused(5, "A[]={a,b,c¶,d![1],1};A[];");
    refused(5, "A[]={a,b,c¶,d");
    refused(5, "A[]={1,2,3¶,4?[1],1};A[];");
    refused(5, "A[]={@a,b,c¶,d![1],1};A[];");
    refused(5, "A[]={~a,b,c¶,d?[1],1};A[];");
    refused(5, "A[]={a,1*2,3¶,4#[1],1};A[];");
    // Neither.
    refused(5, "A[]={a,¶,b![1],1};A[];");
    refused(5, "A[]={a,b,¶![1],1};A[];");
    refused(5, "A[]={a,¶![1],1};A[];");
    refused(5, "A[]={a,-¶b};A[];");
    refused(5, "A[]={a,-¶-1};A[];");
    refused(5, "A[]={a,1*¶};A[];");
    refused(5, "A[]={a,b¶[1]};A[];");
    refused(5, "A[]={a,b¶.};A[];");
    refused(5, "A[]={a,1¶..2![1],1};A[];");
    refused(5, "A[]={a,b¶(c)};A[];");
    refused(5, "A[]={a,b¶!=1};A[];");
    refused(5, "A[]={a,b¶@};A[];");
    refused(5, "A[]={a,¶~b?[1],1};A[];");
    refused(5, "A[]={a,¶@b![1],1};A[];");
    refused(5, "A[]={a,b¶");
    refused(5, "A[]={a,b*c¶");
    refused(5, "A[]={a,(b¶");
    refused(5, "A[]={a¶");
    refused(5, "A[]={a,¶");
    // Signs that only some actions have.
    refused(5, "A[]={@a,b¶#[1],1};A[];");
    refused(5, "A[]={@a,1¶};A[];");
    refused(5, "A[]={~a,b¶![1],1};A[];");
    refused(5, "A[]={~a,1*2¶};A[];");
    refused(5, "A[]={~a,b?[1]¶(x),1};A[];");
}

#[test]
fn waits_and_channels_that_fit() {
    accepted(
        "A[n]={a,1}+{a,n}+{a,1*2}+{a,n*n}+{a,1*(2)}+{a,n*abs(-1)}+{a,1.5}+{a,-0.0}+{a,1.5*n}+{a,0*-1}+{a,-0};A[1];",
    );
    accepted("A[n]={a,1![1],1}+{a,1*2![1],1}+{a,1*2*3![1],1}+{a,-1#[1],1}+{a,n*n+1?[1],1}+{a,n-1?[1](x),1};A[1];");
    accepted("A[n]={a,(n)![1],1}+{a,abs(n)#[1],1}+{1,a?[1],1}+{n,n,n![n],n}+{a,b,c![1],1}+{a,1*2,c![1,2],1};A[1];");
    accepted("A[n]={~a,b?[1],1}+{~1,2,3?[1,2],1}+{@a,1![1],1}+{@1,a,b?[1],1}+{@n+1-1,b?[1](x),1}+{~a,1*2?[1],1};A[1];");
}

#[test]
fn sets_and_expressions() {
    refused(5, "A[]={c?[1..2¶..3],1};A[];");
    refused(5, "A[]={c?[(1¶..2)],1};A[];");
    refused(5, "A[]={c?[1 union¶],1};A[];");
    refused(5, "A[]={c?[1 ¶unio 2],1};A[];");
    refused(5, "A[]={c?[1\\¶\\2],1};A[];");
    refused(5, "A[]={c?[1..¶.2],1};A[];");
    refused(5, "A[]={c![1+¶],1};A[];");
    refused(5, "A[]={c![1+¶+1],1};A[];");
    refused(5, "A[]={c![-¶-1],1};A[];");
    refused(5, "A[n]={c![-¶n],1};A[1];");
    refused(5, "A[]={c![-¶(1)],1};A[];");
    refused(5, "A[]={c![-¶1.5],1};A[];");
    refused(5, "A[]={c![1¶->1],1};A[];");
    refused(5, "A[]={c![2¶^3],1};A[];");
    refused(5, "A[]={c![sqrt¶(4)],1};A[];");
    refused(5, "A[]={c![abs¶],1};A[];");
    refused(5, "A[]={c![abs(1¶,2)],1};A[];");
    refused(5, "A[]={c![max(1¶)],1};A[];");
    refused(5, "A[]={c![max(1,2¶,3)],1};A[];");
    refused(5, "A[]={c![(1¶],1};A[];");
    refused(5, "A[]={c![(¶)],1};A[];");
    refused(5, "A[]={c![1 ¶union 2],1};A[];");
    accepted("A[]={c![1--1*-2/(3-abs(4))+min(1,max(2,3))],1};A[];");
    accepted("A[]={c?[1..2\\1 union 3 inter 4..5,1+1..2*2],1};A[];");
}

#[test]
fn conditions() {
    refused(5, "A[]=[¶]->{go,1};A[];");
    refused(5, "A[]=[1¶]->{go,1};A[];");
    refused(5, "A[]=[1¶=1]->{go,1};A[];");
    refused(5, "A[]=[1<2¶<3]->{go,1};A[];");
    refused(5, "A[]=[(1¶<2)]->{go,1};A[];");
    refused(5, "A[]=[~¶~1<2]->{go,1};A[];");
    refused(5, "A[]=[1<¶~2]->{go,1};A[];");
    refused(5, "A[]=[1<2 ¶|| 1<2]->{go,1};A[];");
    refused(5, "A[]=[1<2 &¶& 1<2]->{go,1};A[];");
    refused(5, "A[]=[1<2 &¶]->{go,1};A[];");
    refused(5, "A[]=[1<2]¶- >{go,1};A[];");
    accepted("A[]=[~1<2 & (1)>=-2 | ~1!=2 & 3==3 | 1<=1 & 2>1]->{go,1};A[];");
}

#[test]
fn rates() {
    refused(5, "A[]={c![1],¶(1)};A[];");
    refused(5, "A[]={c![1],¶abs(1)};A[];");
    refused(5, "A[]={c![1],1¶+1};A[];");
    refused(5, "A[]={c,d?[1],1¶/2};A[];");
    refused(5, "A[]={c![1],1*2¶*3};A[];");
    refused(5, "A[]={c![1],1¶,1};A[];");
    refused(5, "A[]={go,1*¶1.5};A[];");
    refused(5, "A[]={go,-¶x};A[];");
    refused(5, "A[]={go,1*¶};A[];");
    refused(5, "A[]={go,1¶.};A[];");
    accepted("g=1.5;A[n]={go,g*(n+1)}+{go,-1*-1}+{go,n*n}+{go,0.5*max(1,2)}+{go,-0.0*abs(1)};A[1];");
}

#[test]
fn tokens() {
    refused(5, "A[]={go,1}¶$;A[];");
    refused(5, "¶\"");
    refused(5, "A[]={1¶go,1};A[];");
    refused(5, "x=¶.5;");
    refused(5, "¶abs=1;");
    refused(5, "A[¶min]={go,1};A[];");
    refused(5, "A[]={go,1}.¶union[];A[];");
    refused(5, "A[]={c?[1](¶inter),1};A[];");
    accepted("abs_=1;minx=1;A[union1]={max2,1};A[1];");
    accepted("// a\r// b\nA\t[\r\n]={go//x\n,1};A[];//");
}

#[test]
fn a_deep_chain() {
    // As long as a text can have it; it has too many tokens, but question 5 sees it whole.
    let chain = format!("A[]={}{{a,1}};A[];", "{a,1}.".repeat(2_720));
    assert!(chain.len() <= 16_384);
    assert_eq!(answer_to(chain.as_bytes()), (6, place_of_token(&chain, 4_096)));
    let chain = format!("A[]={}{{a,1}};", "{a,1}.".repeat(2_720));
    assert_eq!(answer_to(chain.as_bytes()), (5, chain.len() as u64));
    let chain = format!("A[]={}{{a,1}};A[];", "{a,1}.".repeat(678));
    assert_eq!(second::tokens::split(chain.as_bytes()).len(), 4_068 + 14);
    let mut bench = Bench::of(&chain);
    (0..679).for_each(|_| bench.take(0));
    assert!(bench.processes(0).is_empty());
    // A long sum, a long product and deep brackets.
    let long = format!("A[]={{c![1{}],1}};A[];", "+1".repeat(2_030));
    assert_eq!(Bench::of(&long).step(0).number, 0);
    let long = format!("A[]={{c![1{}],1}};A[];", "*1".repeat(8_000));
    assert_eq!(answer_to(long.as_bytes()), (6, place_of_token(&long, 4_096)));
    let deep = format!("A[]={{a,1}}.{}A[]{};A[];", "(".repeat(24), ")".repeat(24));
    accepted(&deep);
    let deep = format!("A[]={{c![{}1{}],1}};A[];", "(".repeat(24), ")".repeat(24));
    accepted(&deep);
}

fn place_of_token(text: &str, number: usize) -> u64 {
    second::tokens::split(text.as_bytes())[number].start as u64
}

#[test]
fn it_reads_on_a_small_stack() {
    let run = std::thread::Builder::new().stack_size(128 * 1024).spawn(|| {
        let deep = format!("A[]={}{{a,1}};A[];", "{a,1}.".repeat(2_720));
        answer_to(deep.as_bytes());
        let deep = format!("A[]={{c![{}1{}],1}};A[];", "abs(".repeat(24), ")".repeat(24));
        assert_eq!(answer_to(deep.as_bytes()), (0, 0));
        let deep = format!("A[]={}A[]{};A[];", "{a,1}.(".repeat(24), ")".repeat(24));
        assert_eq!(answer_to(deep.as_bytes()), (0, 0));
    });
    run.unwrap().join().unwrap();
}
