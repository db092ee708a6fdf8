// For TypeScript's moduleResolution "node", which does not read the exports of package.json.
export * from "./index.js";
