// Objects and buffers that come and go, and texts that are packed and unpacked.
const zlib = require("zlib");
let kept = [], sum = 0;
for (let turn = 0; turn < 8; turn++) {
  const rows = Array.from({ length: 800 }, (_, at) => ({ at, text: `row ${at * turn}`, values: new Float64Array(at % 40) }));
  const packed = zlib.deflateSync(JSON.stringify(rows)), text = zlib.inflateSync(packed).toString();
  kept = [...kept.slice(-5), JSON.parse(text), Buffer.alloc(1000 + turn * 300)];
  sum += packed.length;
}
console.log(sum, kept.length);
