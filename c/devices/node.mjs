// Runs a WebAssembly program whose functions `failed` and `passed` are imported: prints its line, and exits with 1 at the first check that fails.
import { readFileSync } from "node:fs";

const imports = {
    env: {
        failed(line) {
            console.log(`line ${line} fails`);
            process.exit(1);
        },
        passed() {
            console.log("all vectors pass");
        },
    },
};
const { instance } = await WebAssembly.instantiate(readFileSync(process.argv[2]), imports);
process.exit(instance.exports.main());
