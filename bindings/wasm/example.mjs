// A ramp from 10 to 20 in 4 s, there and back, sampled each second, by the calls of laxombiit.wasm. No import is
// needed. A record lies in the module's memory, its words as include/laxombiit.h has them.
import { readFile } from "node:fs/promises";

const bytes = await readFile(new URL("../../target/lib/wasm32/laxombiit.wasm", import.meta.url));
const { instance } = await WebAssembly.instantiate(bytes);
const lax = instance.exports;

// From __heap_base on the memory is ours: 18 words of a tween, 2 of an update, 4 of a value.
const ramp = lax.__heap_base.value;
const [made, found] = [ramp + 72, ramp + 80];
const floats = new Float32Array(lax.memory.buffer, ramp);
const words = new Uint32Array(lax.memory.buffer, ramp);

lax.lax_tween_new(ramp, 10, 20);
floats[2] = 4; // duration, in seconds
words[3] = 6; // LAX_EASE_IN_OUT_CUBIC
words[11] = 3; // LAX_PING_PONG
for (let second = 1; second <= 8; second++) {
  const refused = lax.lax_tween_update(ramp, 1, made) || lax.lax_tween_value(ramp, found);
  console.log(refused ? `refused ${refused}` : `${second} s  ${floats[20].toFixed(4)}  folds ${words[18]}`);
}
