// The page's first script: unpacks the script of all the rest, which is packed as the page's data are, and starts it.

import { decode, fromBase64 } from "./bytes.js";
import { inflate } from "./inflate.js";

const packed = document.getElementById("packed-script"), script = document.createElement("script");
script.textContent = decode(inflate(fromBase64(packed.textContent), Number(packed.dataset.size)));
packed.replaceWith(script);
