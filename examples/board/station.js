// Which desk this is. The page's <meta name="desk"> has its name, <meta name="training"> whether it keeps nothing; the
// desk itself says its airport.
import { REPORTS, rowsOf } from "./desk.js";

const said = (name) => document.querySelector(`meta[name=${name}]`)?.content.trim() ?? "";

export const deskName = () => said("desk") || "Cargo desk";
export const isTraining = () => said("training") === "yes";
export const here = () => rowsOf(REPORTS.station)[0]?.airport ?? "";
export const isHere = (airport) => here() === "" || airport === here();
