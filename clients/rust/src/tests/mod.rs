//! The encoder and the decoder against clients/vectors.json, and the client against a node that answers by a script.

mod addresses;
mod client;
mod json;
mod scripted_node;
mod wire;
