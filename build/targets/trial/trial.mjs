// The trial in WebAssembly: node trial.mjs TRIAL.WASM IMAGE SCRIPTS RECORDS, or TRIAL.WASM IMAGE --record RECORD TEXT
import fs from "fs";

const [wasm, imageName, ...rest] = process.argv.slice(2);
const { exports: trial } = (await WebAssembly.instantiate(fs.readFileSync(wasm), {})).instance;
const SIZE = 67280;

function put(bytes) {
  const at = trial.malloc(bytes.length + 1);
  new Uint8Array(trial.memory.buffer).set(bytes, at);
  return at;
}

function continueRecord(recordName, textName) {
  const text = fs.readFileSync(textName), at = put(text);
  new Uint8Array(trial.memory.buffer).set(fs.readFileSync(recordName), trial.trial_record());
  const size = trial.trial_continue(at, text.length);
  process.stdout.write(new Uint8Array(trial.memory.buffer, trial.trial_shown(), size));
}

function runAll(scriptsName, recordsName) {
  const image = fs.readFileSync(imageName), texts = fs.readFileSync(scriptsName), records = fs.openSync(recordsName, "w");
  const imageAt = put(image), textsAt = put(texts);
  for (let at = 0; at < texts.length; at = texts.indexOf(0, at) + 1) {
    const digest = trial.trial_digest(imageAt, image.length, textsAt + at, texts.indexOf(0, at) - at, at);
    console.log(BigInt.asUintN(64, digest).toString(16).padStart(16, "0"));
    fs.writeSync(records, new Uint8Array(trial.memory.buffer, trial.trial_record(), SIZE));
  }
}

if (rest[0] === "--record") continueRecord(rest[1], rest[2]);
else runAll(...rest);
