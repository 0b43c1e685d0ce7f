//! Maps go into a format and come back, with all their entries or with a clear error.
use cefrodil_map::{Map, ObjectMap};
use serde_json::{from_str, from_value, json, to_value, Value};

#[derive(serde::Serialize, serde::Deserialize)]
struct Numbers(#[serde(with = "cefrodil_map_serde")] Map<u64, [u64; 3]>);

#[derive(serde::Serialize, serde::Deserialize)]
struct Texts(#[serde(with = "cefrodil_map_serde")] ObjectMap<String, Vec<String>>);

fn text_of(read: Result<Numbers, serde_json::Error>) -> String {
    read.err().map(|why| why.to_string()).unwrap_or_default()
}

#[test]
fn all_entries_come_back() {
    for count in [0, 1, 10_000] {
        let numbers: Map<u64, [u64; 3]> = Map::new(20_000).unwrap();
        (0..count).for_each(|key| _ = numbers.insert(&key, [key, key + 1, key + 2]));
        let Numbers(back) = from_value(to_value(Numbers(numbers)).unwrap()).unwrap();
        assert_eq!((back.len() as u64, back.stats().evicted), (count, 0));
        assert!((0..count).all(|key| back.get(&key) == Some([key, key + 1, key + 2])));
    }
}

#[test]
fn objects_come_back_with_their_keys() {
    let texts = ObjectMap::new(100).unwrap();
    for key in ["a", "", "\"b\""] {
        texts.insert(key.to_string(), vec![key.into(), "x".into()]).unwrap();
    }
    let value = to_value(Texts(texts)).unwrap();
    assert_eq!(value, json!({"a": ["a", "x"], "": ["", "x"], "\"b\"": ["\"b\"", "x"]}));
    let Texts(back) = from_value(value).unwrap();
    assert_eq!((back.len(), back.get("\"b\"")), (3, Some(vec!["\"b\"".into(), "x".into()])));
}

#[test]
fn the_last_value_of_a_key_counts() {
    let Numbers(map) = from_str(r#"{"1": [1, 1, 1], "1": [2, 2, 2]}"#).unwrap();
    assert_eq!((map.len(), map.get(&1)), (1, Some([2, 2, 2])));
}

#[test]
fn what_is_no_map_is_refused() {
    assert!(text_of(from_value(Value::from("x"))).contains("expected a map"));
    assert!(text_of(from_str(r#"{"x": [1, 2, 3]}"#)).contains("invalid type: string \"x\", expected u64"));
    assert!(!text_of(from_str(r#"{"1": [1, 2]}"#)).is_empty());
}
