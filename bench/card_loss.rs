
// Behind the text of analytic_v6.rs (bench/run): the card loss alone, which the text has only for one column.
#[allow(clippy::too_many_arguments)]
pub(crate) fn card_loss(
    w: &[f32],
    t_hist: &[f32],
    r_hist: &[f32],
    seq_len: usize,
    batch: usize,
    seq_lens: &[usize],
    labels: &[f32],
    weights: &[f32],
) -> f64 {
    let params = RuntimeParams::new(w);
    let (mut loss, mut caches, mut g_r_losses) = (0.0, Vec::new(), Vec::new());
    for (column, &n) in seq_lens.iter().enumerate().take(batch) {
        let n = n.min(seq_len);
        loss += card_column_loss_and_grad(
            &params, t_hist, r_hist, n, batch, column, labels, weights, None, &mut caches, &mut g_r_losses,
        );
    }
    loss
}
