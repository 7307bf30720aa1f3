import { Cart } from "./cart.js";

export const page = <main>{new Cart([]).sum()}</main>;
