//! What the compiler says of a type that is no key: how to make it one. And of a key that a map can't give back: what else to take.
use std::env;
use std::fs;
use std::path::{Path, PathBuf};
use std::process::Command;

// The crate's own library, built for this test: it lies beside it. There may be older ones.
fn library(folder: &Path) -> PathBuf {
    let is_own = |path: &PathBuf| {
        let name = path.file_name().and_then(|name| name.to_str()).unwrap_or("");
        name.starts_with("libcefrodil_map-") && name.ends_with(".rlib")
    };
    let all = fs::read_dir(folder).unwrap().map(|entry| entry.unwrap().path()).filter(is_own);
    all.max_by_key(|path| fs::metadata(path).unwrap().modified().unwrap()).expect("the library was built")
}

// What the compiler says of this program. No two tests give theirs the same name.
fn said_of(name: &str, program: &str) -> String {
    let test = env::current_exe().unwrap();
    let (folder, test) = (test.parent().unwrap(), test.file_name().unwrap().to_str().unwrap());
    let (source, made) = (folder.join(format!("{test}-{name}.rs")), folder.join(format!("{test}-{name}.rmeta")));
    fs::write(&source, program).unwrap();
    let compiler = env::var_os("RUSTC").unwrap_or_else(|| "rustc".into());
    let told = Command::new(compiler)
        .args(["--edition=2021", "--crate-type=lib", "--emit=metadata", "--extern"])
        .arg(format!("cefrodil_map={}", library(folder).display()))
        .arg(format!("-Ldependency={}", folder.display()))
        .args([Path::new("-o"), &made, &source])
        .output()
        .unwrap();
    String::from_utf8(told.stderr).unwrap()
}

#[test]
fn a_type_that_is_no_key_says_how_to_make_it_one() {
    let program =
        |key| format!("pub struct Name(pub String);\npub fn opens() {{ let _ = cefrodil_map::Map::<{key}, u64>::new(100); }}\n");
    assert_eq!(said_of("key", &program("String")), "");
    let said = said_of("key", &program("Name"));
    for text in ["error[E0277]: `Name` is no key of a `Map`", "cefrodil_map::key!", "cefrodil_map::Hashed<Name>", "`ObjectMap`"] {
        assert!(said.contains(text), "no {text} in: {said}");
    }
}

#[test]
fn a_key_that_a_map_cannot_give_back_says_what_else_to_take() {
    let program = |key, call| format!("pub fn calls(map: &cefrodil_map::Map<{key}, u64>) {{ let _ = map.{call}; }}\n");
    for call in ["for_each(|_, _| ())", "retain(|_, _| true)"] {
        assert_eq!(said_of("number", &program("u64", call)), "");
        let said = said_of("number", &program("String", call));
        for text in ["error[E0277]: a `Map` can't give a `String` back", "keeps no keys", "`ObjectMap`"] {
            assert!(said.contains(text), "no {text} in: {said}");
        }
    }
}
