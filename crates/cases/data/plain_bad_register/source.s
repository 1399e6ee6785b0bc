f RN 16
