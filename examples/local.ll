; ModuleID = 'local.c'
source_filename = "local.c"
target datalayout = "e-m:e-p270:32:32-p271:32:32-p272:64:64-i64:64-i128:128-f80:128-n8:16:32:64-S128"
target triple = "x86_64-pc-linux-gnu"

@__const.main.numbers = private unnamed_addr constant [4 x i32] [i32 3, i32 9, i32 2, i32 7], align 16
@.str = private unnamed_addr constant [4 x i8] c"%d\0A\00", align 1, !dbg !0

; Function Attrs: nounwind uwtable
define dso_local i32 @main() #0 !dbg !14 {
entry:
  %retval = alloca i32, align 4
  %numbers = alloca [4 x i32], align 16
  %largest = alloca i32, align 4
  %k = alloca i32, align 4
  store i32 0, ptr %retval, align 4
  call void @llvm.lifetime.start.p0(i64 16, ptr %numbers) #4, !dbg !24
    #dbg_declare(ptr %numbers, !19, !DIExpression(), !25)
  call void @llvm.memcpy.p0.p0.i64(ptr align 16 %numbers, ptr align 16 @__const.main.numbers, i64 16, i1 false), !dbg !25
  call void @llvm.lifetime.start.p0(i64 4, ptr %largest) #4, !dbg !26
    #dbg_declare(ptr %largest, !21, !DIExpression(), !27)
  call void @llvm.lifetime.start.p0(i64 4, ptr %k) #4, !dbg !28
    #dbg_declare(ptr %k, !22, !DIExpression(), !29)
  store i32 0, ptr %k, align 4, !dbg !29, !tbaa !30
  br label %for.cond, !dbg !28

for.cond:                                         ; preds = %for.inc, %entry
  %0 = load i32, ptr %k, align 4, !dbg !34, !tbaa !30
  %cmp = icmp slt i32 %0, 4, !dbg !36
  br i1 %cmp, label %for.body, label %for.cond.cleanup, !dbg !37

for.cond.cleanup:                                 ; preds = %for.cond
  call void @llvm.lifetime.end.p0(i64 4, ptr %k) #4, !dbg !38
  br label %for.end

for.body:                                         ; preds = %for.cond
  %1 = load i32, ptr %k, align 4, !dbg !39, !tbaa !30
  %idxprom = sext i32 %1 to i64, !dbg !41
  %arrayidx = getelementptr [4 x i32], ptr %numbers, i64 0, i64 %idxprom, !dbg !41
  %2 = load i32, ptr %arrayidx, align 4, !dbg !41, !tbaa !30
  %3 = load i32, ptr %largest, align 4, !dbg !42, !tbaa !30
  %cmp1 = icmp sgt i32 %2, %3, !dbg !43
  br i1 %cmp1, label %if.then, label %if.end, !dbg !44

if.then:                                          ; preds = %for.body
  %4 = load i32, ptr %k, align 4, !dbg !45, !tbaa !30
  %idxprom2 = sext i32 %4 to i64, !dbg !46
  %arrayidx3 = getelementptr [4 x i32], ptr %numbers, i64 0, i64 %idxprom2, !dbg !46
  %5 = load i32, ptr %arrayidx3, align 4, !dbg !46, !tbaa !30
  store i32 %5, ptr %largest, align 4, !dbg !47, !tbaa !30
  br label %if.end, !dbg !48

if.end:                                           ; preds = %if.then, %for.body
  br label %for.inc, !dbg !42

for.inc:                                          ; preds = %if.end
  %6 = load i32, ptr %k, align 4, !dbg !49, !tbaa !30
  %inc = add i32 %6, 1, !dbg !49
  store i32 %inc, ptr %k, align 4, !dbg !49, !tbaa !30
  br label %for.cond, !dbg !38, !llvm.loop !50

for.end:                                          ; preds = %for.cond.cleanup
  %7 = load i32, ptr %largest, align 4, !dbg !54, !tbaa !30
  %call = call i32 (ptr, ...) @printf(ptr noundef @.str, i32 noundef %7), !dbg !55
  call void @llvm.lifetime.end.p0(i64 4, ptr %largest) #4, !dbg !56
  call void @llvm.lifetime.end.p0(i64 16, ptr %numbers) #4, !dbg !56
  ret i32 0, !dbg !57
}

; Function Attrs: nocallback nofree nosync nounwind willreturn memory(argmem: readwrite)
declare void @llvm.lifetime.start.p0(i64 immarg, ptr nocapture) #1

; Function Attrs: nocallback nofree nounwind willreturn memory(argmem: readwrite)
declare void @llvm.memcpy.p0.p0.i64(ptr noalias nocapture writeonly, ptr noalias nocapture readonly, i64, i1 immarg) #2

; Function Attrs: nocallback nofree nosync nounwind willreturn memory(argmem: readwrite)
declare void @llvm.lifetime.end.p0(i64 immarg, ptr nocapture) #1

declare !dbg !58 dso_local i32 @printf(ptr noundef, ...) #3

attributes #0 = { nounwind uwtable "min-legal-vector-width"="0" "no-trapping-math"="true" "stack-protector-buffer-size"="8" "target-cpu"="x86-64" "target-features"="+cmov,+cx8,+fxsr,+mmx,+sse,+sse2,+x87" "tune-cpu"="generic" }
attributes #1 = { nocallback nofree nosync nounwind willreturn memory(argmem: readwrite) }
attributes #2 = { nocallback nofree nounwind willreturn memory(argmem: readwrite) }
attributes #3 = { "no-trapping-math"="true" "stack-protector-buffer-size"="8" "target-cpu"="x86-64" "target-features"="+cmov,+cx8,+fxsr,+mmx,+sse,+sse2,+x87" "tune-cpu"="generic" }
attributes #4 = { nounwind }

!llvm.dbg.cu = !{!7}
!llvm.module.flags = !{!9, !10, !11, !12}
!llvm.ident = !{!13}

!0 = !DIGlobalVariableExpression(var: !1, expr: !DIExpression())
!1 = distinct !DIGlobalVariable(scope: null, file: !2, line: 10, type: !3, isLocal: true, isDefinition: true)
!2 = !DIFile(filename: "local.c", directory: ".", checksumkind: CSK_MD5, checksum: "bcd2f35f1374668b0d208176b82bcc1a")
!3 = !DICompositeType(tag: DW_TAG_array_type, baseType: !4, size: 32, elements: !5)
!4 = !DIBasicType(name: "char", size: 8, encoding: DW_ATE_signed_char)
!5 = !{!6}
!6 = !DISubrange(count: 4)
!7 = distinct !DICompileUnit(language: DW_LANG_C11, file: !2, producer: "Debian clang version 19.1.7 (3~deb12u1)", isOptimized: true, runtimeVersion: 0, emissionKind: FullDebug, globals: !8, splitDebugInlining: false, nameTableKind: None)
!8 = !{!0}
!9 = !{i32 7, !"Dwarf Version", i32 5}
!10 = !{i32 2, !"Debug Info Version", i32 3}
!11 = !{i32 1, !"wchar_size", i32 4}
!12 = !{i32 7, !"uwtable", i32 2}
!13 = !{!"Debian clang version 19.1.7 (3~deb12u1)"}
!14 = distinct !DISubprogram(name: "main", scope: !2, file: !2, line: 4, type: !15, scopeLine: 4, flags: DIFlagPrototyped | DIFlagAllCallsDescribed, spFlags: DISPFlagDefinition | DISPFlagOptimized, unit: !7, retainedNodes: !18)
!15 = !DISubroutineType(types: !16)
!16 = !{!17}
!17 = !DIBasicType(name: "int", size: 32, encoding: DW_ATE_signed)
!18 = !{!19, !21, !22}
!19 = !DILocalVariable(name: "numbers", scope: !14, file: !2, line: 5, type: !20)
!20 = !DICompositeType(tag: DW_TAG_array_type, baseType: !17, size: 128, elements: !5)
!21 = !DILocalVariable(name: "largest", scope: !14, file: !2, line: 6, type: !17)
!22 = !DILocalVariable(name: "k", scope: !23, file: !2, line: 7, type: !17)
!23 = distinct !DILexicalBlock(scope: !14, file: !2, line: 7, column: 3)
!24 = !DILocation(line: 5, column: 3, scope: !14)
!25 = !DILocation(line: 5, column: 7, scope: !14)
!26 = !DILocation(line: 6, column: 3, scope: !14)
!27 = !DILocation(line: 6, column: 7, scope: !14)
!28 = !DILocation(line: 7, column: 8, scope: !23)
!29 = !DILocation(line: 7, column: 12, scope: !23)
!30 = !{!31, !31, i64 0}
!31 = !{!"int", !32, i64 0}
!32 = !{!"omnipotent char", !33, i64 0}
!33 = !{!"Simple C/C++ TBAA"}
!34 = !DILocation(line: 7, column: 19, scope: !35)
!35 = distinct !DILexicalBlock(scope: !23, file: !2, line: 7, column: 3)
!36 = !DILocation(line: 7, column: 21, scope: !35)
!37 = !DILocation(line: 7, column: 3, scope: !23)
!38 = !DILocation(line: 7, column: 3, scope: !35)
!39 = !DILocation(line: 8, column: 17, scope: !40)
!40 = distinct !DILexicalBlock(scope: !35, file: !2, line: 8, column: 9)
!41 = !DILocation(line: 8, column: 9, scope: !40)
!42 = !DILocation(line: 8, column: 22, scope: !40)
!43 = !DILocation(line: 8, column: 20, scope: !40)
!44 = !DILocation(line: 8, column: 9, scope: !35)
!45 = !DILocation(line: 9, column: 25, scope: !40)
!46 = !DILocation(line: 9, column: 17, scope: !40)
!47 = !DILocation(line: 9, column: 15, scope: !40)
!48 = !DILocation(line: 9, column: 7, scope: !40)
!49 = !DILocation(line: 7, column: 27, scope: !35)
!50 = distinct !{!50, !37, !51, !52, !53}
!51 = !DILocation(line: 9, column: 26, scope: !23)
!52 = !{!"llvm.loop.mustprogress"}
!53 = !{!"llvm.loop.unroll.disable"}
!54 = !DILocation(line: 10, column: 18, scope: !14)
!55 = !DILocation(line: 10, column: 3, scope: !14)
!56 = !DILocation(line: 12, column: 1, scope: !14)
!57 = !DILocation(line: 11, column: 3, scope: !14)
!58 = !DISubprogram(name: "printf", scope: !59, file: !59, line: 356, type: !60, flags: DIFlagPrototyped, spFlags: DISPFlagOptimized)
!59 = !DIFile(filename: "/usr/include/stdio.h", directory: "", checksumkind: CSK_MD5, checksum: "b5a90985555f47bfb88eff5a8f0f5b72")
!60 = !DISubroutineType(types: !61)
!61 = !{!17, !62, null}
!62 = !DIDerivedType(tag: DW_TAG_restrict_type, baseType: !63)
!63 = !DIDerivedType(tag: DW_TAG_pointer_type, baseType: !64, size: 64)
!64 = !DIDerivedType(tag: DW_TAG_const_type, baseType: !4)
