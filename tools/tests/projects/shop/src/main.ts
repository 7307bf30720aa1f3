/// <reference types="slugger" />
import { readFileSync } from "node:fs";
import { join } from "path";
import slug from "slugger";
import { value } from "dual";
import { metres } from "@scope/units/length";
import { format } from "shop/money";
import { currency } from "#config";
import { Cart } from "./cart";
import { page } from "./view.js";
import { log } from "@/log";
import catalogue from "./catalogue.json";
import "./style.css";
import { Item } from "./types";
import type { Report } from "./report";

export async function open(item: Item): Promise<Report> {
  const cart = new Cart([item]);
  log(slug(item.name), metres(value), format(cart.sum(), currency), page, join("a", "b"), catalogue, readFileSync);
  const { report } = await import("./report");
  return report(cart);
}
